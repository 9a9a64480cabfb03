; ModuleID = 'llvm-link'
source_filename = "llvm-link"
target datalayout = "e-m:e-p270:32:32-p271:32:32-p272:64:64-i64:64-i128:128-f80:128-n8:16:32:64-S128"
target triple = "x86_64-pc-linux-gnu"

%struct.person = type { [16 x i8], i32 }
%struct.settings = type { [2 x i8], i32 }
%struct.number = type { i64, i32, i32, ptr }

@.str = private unnamed_addr constant [16 x i8] c"ada:36,grace:85\00", align 1, !dbg !0
@.str.1 = private unnamed_addr constant [17 x i8] c"settings && line\00", align 1, !dbg !7
@.str.2 = private unnamed_addr constant [8 x i8] c"names.c\00", align 1, !dbg !12
@__PRETTY_FUNCTION__.main = private unnamed_addr constant [15 x i8] c"int main(void)\00", align 1, !dbg !17
@.str.3 = private unnamed_addr constant [2 x i8] c",\00", align 1, !dbg !23
@.str.4 = private unnamed_addr constant [4 x i8] c"Ms \00", align 1, !dbg !28
@.str.5 = private unnamed_addr constant [7 x i8] c"Ms Ada\00", align 1, !dbg !33
@.str.6 = private unnamed_addr constant [4 x i8] c"%d\0A\00", align 1, !dbg !38
@.str.7 = private unnamed_addr constant [11 x i8] c"0123456789\00", align 1, !dbg !40
@.str.8 = private unnamed_addr constant [65 x i8] c"colon && isalpha(text[0]) && strspn(colon + 1, \220123456789\22) > 0\00", align 1, !dbg !45
@__PRETTY_FUNCTION__.read_person = private unnamed_addr constant [67 x i8] c"void read_person(char *, const struct settings *, struct person *)\00", align 1, !dbg !50
@.str.9 = private unnamed_addr constant [35 x i8] c"%s:%u: %s: Assertion `%s' failed.\0A\00", align 1, !dbg !55
@__ctype_b_loc.start = internal global ptr null, align 8, !dbg !61
@classes = internal constant <{ [256 x i16], [128 x i16] }> <{ [256 x i16] [i16 0, i16 0, i16 0, i16 0, i16 0, i16 0, i16 0, i16 0, i16 0, i16 0, i16 0, i16 0, i16 0, i16 0, i16 0, i16 0, i16 0, i16 0, i16 0, i16 0, i16 0, i16 0, i16 0, i16 0, i16 0, i16 0, i16 0, i16 0, i16 0, i16 0, i16 0, i16 0, i16 0, i16 0, i16 0, i16 0, i16 0, i16 0, i16 0, i16 0, i16 0, i16 0, i16 0, i16 0, i16 0, i16 0, i16 0, i16 0, i16 0, i16 0, i16 0, i16 0, i16 0, i16 0, i16 0, i16 0, i16 0, i16 0, i16 0, i16 0, i16 0, i16 0, i16 0, i16 0, i16 0, i16 0, i16 0, i16 0, i16 0, i16 0, i16 0, i16 0, i16 0, i16 0, i16 0, i16 0, i16 0, i16 0, i16 0, i16 0, i16 0, i16 0, i16 0, i16 0, i16 0, i16 0, i16 0, i16 0, i16 0, i16 0, i16 0, i16 0, i16 0, i16 0, i16 0, i16 0, i16 0, i16 0, i16 0, i16 0, i16 0, i16 0, i16 0, i16 0, i16 0, i16 0, i16 0, i16 0, i16 0, i16 0, i16 0, i16 0, i16 0, i16 0, i16 0, i16 0, i16 0, i16 0, i16 0, i16 0, i16 0, i16 0, i16 0, i16 0, i16 0, i16 0, i16 0, i16 0, i16 2, i16 2, i16 2, i16 2, i16 2, i16 2, i16 2, i16 2, i16 2, i16 8195, i16 8194, i16 8194, i16 8194, i16 8194, i16 2, i16 2, i16 2, i16 2, i16 2, i16 2, i16 2, i16 2, i16 2, i16 2, i16 2, i16 2, i16 2, i16 2, i16 2, i16 2, i16 2, i16 2, i16 24577, i16 -16380, i16 -16380, i16 -16380, i16 -16380, i16 -16380, i16 -16380, i16 -16380, i16 -16380, i16 -16380, i16 -16380, i16 -16380, i16 -16380, i16 -16380, i16 -16380, i16 -16380, i16 -10232, i16 -10232, i16 -10232, i16 -10232, i16 -10232, i16 -10232, i16 -10232, i16 -10232, i16 -10232, i16 -10232, i16 -16380, i16 -16380, i16 -16380, i16 -16380, i16 -16380, i16 -16380, i16 -16380, i16 -11000, i16 -11000, i16 -11000, i16 -11000, i16 -11000, i16 -11000, i16 -15096, i16 -15096, i16 -15096, i16 -15096, i16 -15096, i16 -15096, i16 -15096, i16 -15096, i16 -15096, i16 -15096, i16 -15096, i16 -15096, i16 -15096, i16 -15096, i16 -15096, i16 -15096, i16 -15096, i16 -15096, i16 -15096, i16 -15096, i16 -16380, i16 -16380, i16 -16380, i16 -16380, i16 -16380, i16 -16380, i16 -10744, i16 -10744, i16 -10744, i16 -10744, i16 -10744, i16 -10744, i16 -14840, i16 -14840, i16 -14840, i16 -14840, i16 -14840, i16 -14840, i16 -14840, i16 -14840, i16 -14840, i16 -14840, i16 -14840, i16 -14840, i16 -14840, i16 -14840, i16 -14840, i16 -14840, i16 -14840, i16 -14840, i16 -14840, i16 -14840, i16 -16380, i16 -16380, i16 -16380, i16 -16380, i16 2], [128 x i16] zeroinitializer }>, align 16, !dbg !85
@__errno_location.error = internal global i32 0, align 4, !dbg !90
@strtok.rest = internal global ptr null, align 8, !dbg !99

; Function Attrs: nounwind uwtable
define dso_local i32 @main() #0 !dbg !223 {
entry:
  %retval = alloca i32, align 4
  %settings = alloca ptr, align 8
  %line = alloca ptr, align 8
  %text = alloca ptr, align 8
  %person = alloca %struct.person, align 4
  %name = alloca [16 x i8], align 16
  store i32 0, ptr %retval, align 4
  call void @llvm.lifetime.start.p0(i64 8, ptr %settings) #11, !dbg !244
    #dbg_declare(ptr %settings, !227, !DIExpression(), !245)
  %call = call noalias ptr @malloc(i64 noundef 8) #12, !dbg !246
  store ptr %call, ptr %settings, align 8, !dbg !245, !tbaa !247
  call void @llvm.lifetime.start.p0(i64 8, ptr %line) #11, !dbg !251
    #dbg_declare(ptr %line, !233, !DIExpression(), !252)
  %call1 = call noalias ptr @strdup(ptr noundef @.str) #11, !dbg !253
  store ptr %call1, ptr %line, align 8, !dbg !252, !tbaa !247
  %0 = load ptr, ptr %settings, align 8, !dbg !254, !tbaa !247
  %tobool = icmp ne ptr %0, null, !dbg !254
  br i1 %tobool, label %land.lhs.true, label %if.else, !dbg !254

land.lhs.true:                                    ; preds = %entry
  %1 = load ptr, ptr %line, align 8, !dbg !254, !tbaa !247
  %tobool2 = icmp ne ptr %1, null, !dbg !254
  br i1 %tobool2, label %if.then, label %if.else, !dbg !257

if.then:                                          ; preds = %land.lhs.true
  br label %if.end, !dbg !257

if.else:                                          ; preds = %land.lhs.true, %entry
  call void @__assert_fail(ptr noundef @.str.1, ptr noundef @.str.2, i32 noundef 39, ptr noundef @__PRETTY_FUNCTION__.main) #13, !dbg !254
  unreachable, !dbg !254

if.end:                                           ; preds = %if.then
  %2 = load ptr, ptr %settings, align 8, !dbg !258, !tbaa !247
  %separator = getelementptr inbounds %struct.settings, ptr %2, i32 0, i32 0, !dbg !259
  %arraydecay = getelementptr inbounds [2 x i8], ptr %separator, i64 0, i64 0, !dbg !258
  %call3 = call ptr @strcpy(ptr noundef %arraydecay, ptr noundef @.str.3) #11, !dbg !260
  call void @llvm.lifetime.start.p0(i64 8, ptr %text) #11, !dbg !261
    #dbg_declare(ptr %text, !234, !DIExpression(), !262)
  %3 = load ptr, ptr %line, align 8, !dbg !263, !tbaa !247
  %4 = load ptr, ptr %settings, align 8, !dbg !264, !tbaa !247
  %separator4 = getelementptr inbounds %struct.settings, ptr %4, i32 0, i32 0, !dbg !265
  %arraydecay5 = getelementptr inbounds [2 x i8], ptr %separator4, i64 0, i64 0, !dbg !264
  %call6 = call ptr @strtok(ptr noundef %3, ptr noundef %arraydecay5) #11, !dbg !266
  store ptr %call6, ptr %text, align 8, !dbg !262, !tbaa !247
  br label %for.cond, !dbg !261

for.cond:                                         ; preds = %for.inc, %if.end
  %5 = load ptr, ptr %text, align 8, !dbg !267, !tbaa !247
  %tobool7 = icmp ne ptr %5, null, !dbg !268
  br i1 %tobool7, label %for.body, label %for.cond.cleanup, !dbg !268

for.cond.cleanup:                                 ; preds = %for.cond
  call void @llvm.lifetime.end.p0(i64 8, ptr %text) #11, !dbg !269
  br label %for.end

for.body:                                         ; preds = %for.cond
  call void @llvm.lifetime.start.p0(i64 20, ptr %person) #11, !dbg !270
    #dbg_declare(ptr %person, !236, !DIExpression(), !271)
  call void @llvm.lifetime.start.p0(i64 16, ptr %name) #11, !dbg !272
    #dbg_declare(ptr %name, !243, !DIExpression(), !273)
  %6 = load ptr, ptr %text, align 8, !dbg !274, !tbaa !247
  %7 = load ptr, ptr %settings, align 8, !dbg !275, !tbaa !247
  call void @read_person(ptr noundef %6, ptr noundef %7, ptr noundef %person), !dbg !276
  %arraydecay8 = getelementptr inbounds [16 x i8], ptr %name, i64 0, i64 0, !dbg !277
  %name9 = getelementptr inbounds %struct.person, ptr %person, i32 0, i32 0, !dbg !278
  %arraydecay10 = getelementptr inbounds [16 x i8], ptr %name9, i64 0, i64 0, !dbg !279
  %call11 = call ptr @strcpy(ptr noundef %arraydecay8, ptr noundef %arraydecay10) #11, !dbg !280
  %arraydecay12 = getelementptr inbounds [16 x i8], ptr %name, i64 0, i64 0, !dbg !281
  %call13 = call i32 @is_called(ptr noundef %arraydecay12, ptr noundef @.str.4, ptr noundef @.str.5), !dbg !283
  %tobool14 = icmp ne i32 %call13, 0, !dbg !283
  br i1 %tobool14, label %if.then15, label %if.end17, !dbg !284

if.then15:                                        ; preds = %for.body
  %age = getelementptr inbounds %struct.person, ptr %person, i32 0, i32 1, !dbg !285
  %8 = load i32, ptr %age, align 4, !dbg !285, !tbaa !286
  %call16 = call i32 (ptr, ...) @printf(ptr noundef @.str.6, i32 noundef %8), !dbg !289
  br label %if.end17, !dbg !289

if.end17:                                         ; preds = %if.then15, %for.body
  call void @llvm.lifetime.end.p0(i64 16, ptr %name) #11, !dbg !290
  call void @llvm.lifetime.end.p0(i64 20, ptr %person) #11, !dbg !290
  br label %for.inc, !dbg !291

for.inc:                                          ; preds = %if.end17
  %9 = load ptr, ptr %settings, align 8, !dbg !292, !tbaa !247
  %separator18 = getelementptr inbounds %struct.settings, ptr %9, i32 0, i32 0, !dbg !293
  %arraydecay19 = getelementptr inbounds [2 x i8], ptr %separator18, i64 0, i64 0, !dbg !292
  %call20 = call ptr @strtok(ptr noundef null, ptr noundef %arraydecay19) #11, !dbg !294
  store ptr %call20, ptr %text, align 8, !dbg !295, !tbaa !247
  br label %for.cond, !dbg !269, !llvm.loop !296

for.end:                                          ; preds = %for.cond.cleanup
  call void @llvm.lifetime.end.p0(i64 8, ptr %line) #11, !dbg !300
  call void @llvm.lifetime.end.p0(i64 8, ptr %settings) #11, !dbg !300
  ret i32 0, !dbg !301
}

; Function Attrs: nocallback nofree nosync nounwind willreturn memory(argmem: readwrite)
declare void @llvm.lifetime.start.p0(i64 immarg, ptr nocapture) #1

; Function Attrs: nounwind allocsize(0)
declare !dbg !302 dso_local noalias ptr @malloc(i64 noundef) #2

; Function Attrs: nocallback nofree nosync nounwind willreturn memory(argmem: readwrite)
declare void @llvm.lifetime.end.p0(i64 immarg, ptr nocapture) #1

; Function Attrs: nounwind uwtable
define internal void @read_person(ptr noundef %text, ptr noundef %settings, ptr noundef %person) #0 !dbg !306 {
entry:
  %text.addr = alloca ptr, align 8
  %settings.addr = alloca ptr, align 8
  %person.addr = alloca ptr, align 8
  %colon = alloca ptr, align 8
  store ptr %text, ptr %text.addr, align 8, !tbaa !247
    #dbg_declare(ptr %text.addr, !313, !DIExpression(), !317)
  store ptr %settings, ptr %settings.addr, align 8, !tbaa !247
    #dbg_declare(ptr %settings.addr, !314, !DIExpression(), !318)
  store ptr %person, ptr %person.addr, align 8, !tbaa !247
    #dbg_declare(ptr %person.addr, !315, !DIExpression(), !319)
  call void @llvm.lifetime.start.p0(i64 8, ptr %colon) #11, !dbg !320
    #dbg_declare(ptr %colon, !316, !DIExpression(), !321)
  %0 = load ptr, ptr %text.addr, align 8, !dbg !322, !tbaa !247
  %call = call ptr @strchr(ptr noundef %0, i32 noundef 58) #14, !dbg !323
  store ptr %call, ptr %colon, align 8, !dbg !321, !tbaa !247
  %1 = load ptr, ptr %colon, align 8, !dbg !324, !tbaa !247
  %tobool = icmp ne ptr %1, null, !dbg !324
  br i1 %tobool, label %land.lhs.true, label %if.else, !dbg !324

land.lhs.true:                                    ; preds = %entry
  %call1 = call ptr @__ctype_b_loc() #15, !dbg !324
  %2 = load ptr, ptr %call1, align 8, !dbg !324, !tbaa !247
  %3 = load ptr, ptr %text.addr, align 8, !dbg !324, !tbaa !247
  %arrayidx = getelementptr i8, ptr %3, i64 0, !dbg !324
  %4 = load i8, ptr %arrayidx, align 1, !dbg !324, !tbaa !327
  %conv = sext i8 %4 to i32, !dbg !324
  %idxprom = sext i32 %conv to i64, !dbg !324
  %arrayidx2 = getelementptr i16, ptr %2, i64 %idxprom, !dbg !324
  %5 = load i16, ptr %arrayidx2, align 2, !dbg !324, !tbaa !328
  %conv3 = zext i16 %5 to i32, !dbg !324
  %and = and i32 %conv3, 1024, !dbg !324
  %tobool4 = icmp ne i32 %and, 0, !dbg !324
  br i1 %tobool4, label %land.lhs.true5, label %if.else, !dbg !324

land.lhs.true5:                                   ; preds = %land.lhs.true
  %6 = load ptr, ptr %colon, align 8, !dbg !324, !tbaa !247
  %add.ptr = getelementptr i8, ptr %6, i64 1, !dbg !324
  %call6 = call i64 @strspn(ptr noundef %add.ptr, ptr noundef @.str.7) #14, !dbg !324
  %cmp = icmp ugt i64 %call6, 0, !dbg !324
  br i1 %cmp, label %if.then, label %if.else, !dbg !330

if.then:                                          ; preds = %land.lhs.true5
  br label %if.end, !dbg !330

if.else:                                          ; preds = %land.lhs.true5, %land.lhs.true, %entry
  call void @__assert_fail(ptr noundef @.str.8, ptr noundef @.str.2, i32 noundef 22, ptr noundef @__PRETTY_FUNCTION__.read_person) #13, !dbg !324
  unreachable, !dbg !324

if.end:                                           ; preds = %if.then
  %7 = load ptr, ptr %colon, align 8, !dbg !331, !tbaa !247
  store i8 0, ptr %7, align 1, !dbg !332, !tbaa !327
  %8 = load ptr, ptr %person.addr, align 8, !dbg !333, !tbaa !247
  %name = getelementptr inbounds %struct.person, ptr %8, i32 0, i32 0, !dbg !334
  %arraydecay = getelementptr inbounds [16 x i8], ptr %name, i64 0, i64 0, !dbg !333
  %9 = load ptr, ptr %text.addr, align 8, !dbg !335, !tbaa !247
  %call8 = call ptr @strcpy(ptr noundef %arraydecay, ptr noundef %9) #11, !dbg !336
  %10 = load ptr, ptr %text.addr, align 8, !dbg !337, !tbaa !247
  %arrayidx9 = getelementptr i8, ptr %10, i64 0, !dbg !337
  %11 = load i8, ptr %arrayidx9, align 1, !dbg !337, !tbaa !327
  %conv10 = sext i8 %11 to i32, !dbg !337
  %call11 = call i32 @toupper(i32 noundef %conv10) #14, !dbg !338
  %12 = load ptr, ptr %settings.addr, align 8, !dbg !339, !tbaa !247
  %flags = getelementptr inbounds %struct.settings, ptr %12, i32 0, i32 1, !dbg !340
  %13 = load i32, ptr %flags, align 4, !dbg !340, !tbaa !341
  %and12 = and i32 %13, 32, !dbg !343
  %or = or i32 %call11, %and12, !dbg !344
  %conv13 = trunc i32 %or to i8, !dbg !338
  %14 = load ptr, ptr %person.addr, align 8, !dbg !345, !tbaa !247
  %name14 = getelementptr inbounds %struct.person, ptr %14, i32 0, i32 0, !dbg !346
  %arrayidx15 = getelementptr [16 x i8], ptr %name14, i64 0, i64 0, !dbg !345
  store i8 %conv13, ptr %arrayidx15, align 4, !dbg !347, !tbaa !327
  %15 = load ptr, ptr %colon, align 8, !dbg !348, !tbaa !247
  %add.ptr16 = getelementptr i8, ptr %15, i64 1, !dbg !349
  %call17 = call i32 @atoi(ptr noundef %add.ptr16) #14, !dbg !350
  %16 = load ptr, ptr %person.addr, align 8, !dbg !351, !tbaa !247
  %age = getelementptr inbounds %struct.person, ptr %16, i32 0, i32 1, !dbg !352
  store i32 %call17, ptr %age, align 4, !dbg !353, !tbaa !286
  call void @llvm.lifetime.end.p0(i64 8, ptr %colon) #11, !dbg !354
  ret void, !dbg !354
}

; Function Attrs: nounwind uwtable
define internal i32 @is_called(ptr noundef %name, ptr noundef %title, ptr noundef %wanted) #0 !dbg !355 {
entry:
  %name.addr = alloca ptr, align 8
  %title.addr = alloca ptr, align 8
  %wanted.addr = alloca ptr, align 8
  %whole = alloca [32 x i8], align 16
  store ptr %name, ptr %name.addr, align 8, !tbaa !247
    #dbg_declare(ptr %name.addr, !359, !DIExpression(), !366)
  store ptr %title, ptr %title.addr, align 8, !tbaa !247
    #dbg_declare(ptr %title.addr, !360, !DIExpression(), !367)
  store ptr %wanted, ptr %wanted.addr, align 8, !tbaa !247
    #dbg_declare(ptr %wanted.addr, !361, !DIExpression(), !368)
  call void @llvm.lifetime.start.p0(i64 32, ptr %whole) #11, !dbg !369
    #dbg_declare(ptr %whole, !362, !DIExpression(), !370)
  %arraydecay = getelementptr inbounds [32 x i8], ptr %whole, i64 0, i64 0, !dbg !371
  %0 = load ptr, ptr %title.addr, align 8, !dbg !372, !tbaa !247
  %call = call ptr @strcpy(ptr noundef %arraydecay, ptr noundef %0) #11, !dbg !373
  %arraydecay1 = getelementptr inbounds [32 x i8], ptr %whole, i64 0, i64 0, !dbg !374
  %1 = load ptr, ptr %name.addr, align 8, !dbg !375, !tbaa !247
  %call2 = call ptr @strcat(ptr noundef %arraydecay1, ptr noundef %1) #11, !dbg !376
  %arraydecay3 = getelementptr inbounds [32 x i8], ptr %whole, i64 0, i64 0, !dbg !377
  %2 = load ptr, ptr %wanted.addr, align 8, !dbg !378, !tbaa !247
  %call4 = call i32 @strcmp(ptr noundef %arraydecay3, ptr noundef %2) #14, !dbg !379
  %cmp = icmp eq i32 %call4, 0, !dbg !380
  %conv = zext i1 %cmp to i32, !dbg !380
  call void @llvm.lifetime.end.p0(i64 32, ptr %whole) #11, !dbg !381
  ret i32 %conv, !dbg !382
}

declare !dbg !383 dso_local i32 @printf(ptr noundef, ...) #3

; Function Attrs: noinline noreturn nounwind optnone uwtable
define weak dso_local void @__assert_fail(ptr noundef %condition, ptr noundef %file, i32 noundef %line, ptr noundef %function) #4 !dbg !387 {
entry:
  %condition.addr = alloca ptr, align 8
  %file.addr = alloca ptr, align 8
  %line.addr = alloca i32, align 4
  %function.addr = alloca ptr, align 8
  store ptr %condition, ptr %condition.addr, align 8
    #dbg_declare(ptr %condition.addr, !390, !DIExpression(), !391)
  store ptr %file, ptr %file.addr, align 8
    #dbg_declare(ptr %file.addr, !392, !DIExpression(), !393)
  store i32 %line, ptr %line.addr, align 4
    #dbg_declare(ptr %line.addr, !394, !DIExpression(), !395)
  store ptr %function, ptr %function.addr, align 8
    #dbg_declare(ptr %function.addr, !396, !DIExpression(), !397)
  %0 = load ptr, ptr %file.addr, align 8, !dbg !398
  %1 = load i32, ptr %line.addr, align 4, !dbg !399
  %2 = load ptr, ptr %function.addr, align 8, !dbg !400
  %3 = load ptr, ptr %condition.addr, align 8, !dbg !401
  %call = call i32 (ptr, ...) @printf(ptr noundef @.str.9, ptr noundef %0, i32 noundef %1, ptr noundef %2, ptr noundef %3) #16, !dbg !402
  call void @abort() #17, !dbg !403
  unreachable, !dbg !403
}

; Function Attrs: noreturn nounwind
declare dso_local void @abort() #5

; Function Attrs: noinline nounwind optnone uwtable
define weak dso_local i32 @toupper(i32 noundef %c) #6 !dbg !404 {
entry:
  %c.addr = alloca i32, align 4
  store i32 %c, ptr %c.addr, align 4
    #dbg_declare(ptr %c.addr, !407, !DIExpression(), !408)
  %0 = load i32, ptr %c.addr, align 4, !dbg !409
  %1 = load i32, ptr %c.addr, align 4, !dbg !410
  %call = call i32 @between(i32 noundef %1, i32 noundef 97, i32 noundef 122) #16, !dbg !411
  %shl = shl i32 %call, 5, !dbg !412
  %not = xor i32 %shl, -1, !dbg !413
  %and = and i32 %0, %not, !dbg !414
  ret i32 %and, !dbg !415
}

; Function Attrs: noinline nounwind optnone uwtable
define internal i32 @between(i32 noundef %c, i32 noundef %first, i32 noundef %last) #6 !dbg !416 {
entry:
  %c.addr = alloca i32, align 4
  %first.addr = alloca i32, align 4
  %last.addr = alloca i32, align 4
  store i32 %c, ptr %c.addr, align 4
    #dbg_declare(ptr %c.addr, !419, !DIExpression(), !420)
  store i32 %first, ptr %first.addr, align 4
    #dbg_declare(ptr %first.addr, !421, !DIExpression(), !422)
  store i32 %last, ptr %last.addr, align 4
    #dbg_declare(ptr %last.addr, !423, !DIExpression(), !424)
  %0 = load i32, ptr %c.addr, align 4, !dbg !425
  %1 = load i32, ptr %first.addr, align 4, !dbg !426
  %sub = sub i32 %0, %1, !dbg !427
  %2 = load i32, ptr %last.addr, align 4, !dbg !428
  %3 = load i32, ptr %first.addr, align 4, !dbg !429
  %sub1 = sub i32 %2, %3, !dbg !430
  %cmp = icmp ule i32 %sub, %sub1, !dbg !431
  %conv = zext i1 %cmp to i32, !dbg !431
  ret i32 %conv, !dbg !432
}

; Function Attrs: noinline nounwind optnone willreturn memory(none) uwtable
define weak dso_local ptr @__ctype_b_loc() #7 !dbg !63 {
entry:
  store ptr getelementptr (i16, ptr @classes, i64 128), ptr @__ctype_b_loc.start, align 8, !dbg !433
  ret ptr @__ctype_b_loc.start, !dbg !434
}

; Function Attrs: noinline nounwind optnone willreturn memory(read) uwtable
define weak dso_local i32 @atoi(ptr noundef nonnull %text) #8 !dbg !435 {
entry:
  %text.addr = alloca ptr, align 8
  store ptr %text, ptr %text.addr, align 8
    #dbg_declare(ptr %text.addr, !438, !DIExpression(), !439)
  %0 = load ptr, ptr %text.addr, align 8, !dbg !440
  %call = call i64 @to_signed(ptr noundef %0, ptr noundef null, i32 noundef 10) #16, !dbg !441
  %conv = trunc i64 %call to i32, !dbg !442
  ret i32 %conv, !dbg !443
}

; Function Attrs: noinline nounwind optnone uwtable
define internal i64 @to_signed(ptr noundef %text, ptr noundef %end, i32 noundef %base) #6 !dbg !444 {
entry:
  %text.addr = alloca ptr, align 8
  %end.addr = alloca ptr, align 8
  %base.addr = alloca i32, align 4
  %number = alloca %struct.number, align 8
  %most = alloca i64, align 8
  store ptr %text, ptr %text.addr, align 8
    #dbg_declare(ptr %text.addr, !448, !DIExpression(), !449)
  store ptr %end, ptr %end.addr, align 8
    #dbg_declare(ptr %end.addr, !450, !DIExpression(), !451)
  store i32 %base, ptr %base.addr, align 4
    #dbg_declare(ptr %base.addr, !452, !DIExpression(), !453)
    #dbg_declare(ptr %number, !454, !DIExpression(), !461)
  %0 = load ptr, ptr %text.addr, align 8, !dbg !462
  %1 = load i32, ptr %base.addr, align 4, !dbg !463
  %call = call ptr @read_number(ptr noundef %0, i32 noundef %1, ptr noundef %number) #16, !dbg !464
  %2 = load ptr, ptr %end.addr, align 8, !dbg !465
  %tobool = icmp ne ptr %2, null, !dbg !465
  br i1 %tobool, label %if.then, label %if.end, !dbg !467

if.then:                                          ; preds = %entry
  %end1 = getelementptr inbounds %struct.number, ptr %number, i32 0, i32 3, !dbg !468
  %3 = load ptr, ptr %end1, align 8, !dbg !468
  %4 = load ptr, ptr %end.addr, align 8, !dbg !469
  store ptr %3, ptr %4, align 8, !dbg !470
  br label %if.end, !dbg !471

if.end:                                           ; preds = %if.then, %entry
    #dbg_declare(ptr %most, !472, !DIExpression(), !473)
  %is_negative = getelementptr inbounds %struct.number, ptr %number, i32 0, i32 1, !dbg !474
  %5 = load i32, ptr %is_negative, align 8, !dbg !474
  %tobool2 = icmp ne i32 %5, 0, !dbg !475
  %6 = zext i1 %tobool2 to i64, !dbg !475
  %cond = select i1 %tobool2, i64 -9223372036854775808, i64 9223372036854775807, !dbg !475
  store i64 %cond, ptr %most, align 8, !dbg !473
  %magnitude = getelementptr inbounds %struct.number, ptr %number, i32 0, i32 0, !dbg !476
  %7 = load i64, ptr %magnitude, align 8, !dbg !476
  %8 = load i64, ptr %most, align 8, !dbg !478
  %cmp = icmp ugt i64 %7, %8, !dbg !479
  br i1 %cmp, label %if.then3, label %if.end6, !dbg !480

if.then3:                                         ; preds = %if.end
  %call4 = call ptr @__errno_location() #18, !dbg !481
  store i32 34, ptr %call4, align 4, !dbg !483
  %9 = load i64, ptr %most, align 8, !dbg !484
  %magnitude5 = getelementptr inbounds %struct.number, ptr %number, i32 0, i32 0, !dbg !485
  store i64 %9, ptr %magnitude5, align 8, !dbg !486
  br label %if.end6, !dbg !487

if.end6:                                          ; preds = %if.then3, %if.end
  %is_negative7 = getelementptr inbounds %struct.number, ptr %number, i32 0, i32 1, !dbg !488
  %10 = load i32, ptr %is_negative7, align 8, !dbg !488
  %tobool8 = icmp ne i32 %10, 0, !dbg !489
  br i1 %tobool8, label %cond.true, label %cond.false, !dbg !489

cond.true:                                        ; preds = %if.end6
  %magnitude9 = getelementptr inbounds %struct.number, ptr %number, i32 0, i32 0, !dbg !490
  %11 = load i64, ptr %magnitude9, align 8, !dbg !490
  %sub = sub i64 0, %11, !dbg !491
  br label %cond.end, !dbg !489

cond.false:                                       ; preds = %if.end6
  %magnitude10 = getelementptr inbounds %struct.number, ptr %number, i32 0, i32 0, !dbg !492
  %12 = load i64, ptr %magnitude10, align 8, !dbg !492
  br label %cond.end, !dbg !489

cond.end:                                         ; preds = %cond.false, %cond.true
  %cond11 = phi i64 [ %sub, %cond.true ], [ %12, %cond.false ], !dbg !489
  ret i64 %cond11, !dbg !493
}

; Function Attrs: noinline nounwind optnone uwtable
define internal ptr @read_number(ptr noundef %text, i32 noundef %base, ptr noundef %number) #6 !dbg !494 {
entry:
  %retval = alloca ptr, align 8
  %text.addr = alloca ptr, align 8
  %base.addr = alloca i32, align 4
  %number.addr = alloca ptr, align 8
  %.compoundliteral = alloca %struct.number, align 8
  store ptr %text, ptr %text.addr, align 8
    #dbg_declare(ptr %text.addr, !498, !DIExpression(), !499)
  store i32 %base, ptr %base.addr, align 4
    #dbg_declare(ptr %base.addr, !500, !DIExpression(), !501)
  store ptr %number, ptr %number.addr, align 8
    #dbg_declare(ptr %number.addr, !502, !DIExpression(), !503)
  %0 = load ptr, ptr %number.addr, align 8, !dbg !504
  %magnitude = getelementptr inbounds %struct.number, ptr %.compoundliteral, i32 0, i32 0, !dbg !505
  store i64 0, ptr %magnitude, align 8, !dbg !505
  %is_negative = getelementptr inbounds %struct.number, ptr %.compoundliteral, i32 0, i32 1, !dbg !505
  store i32 0, ptr %is_negative, align 8, !dbg !505
  %is_too_large = getelementptr inbounds %struct.number, ptr %.compoundliteral, i32 0, i32 2, !dbg !505
  store i32 0, ptr %is_too_large, align 4, !dbg !505
  %end = getelementptr inbounds %struct.number, ptr %.compoundliteral, i32 0, i32 3, !dbg !505
  %1 = load ptr, ptr %text.addr, align 8, !dbg !506
  store ptr %1, ptr %end, align 8, !dbg !505
  call void @llvm.memcpy.p0.p0.i64(ptr align 8 %0, ptr align 8 %.compoundliteral, i64 24, i1 false), !dbg !507
  %2 = load i32, ptr %base.addr, align 4, !dbg !508
  %cmp = icmp slt i32 %2, 0, !dbg !510
  br i1 %cmp, label %if.then, label %lor.lhs.false, !dbg !511

lor.lhs.false:                                    ; preds = %entry
  %3 = load i32, ptr %base.addr, align 4, !dbg !512
  %cmp1 = icmp eq i32 %3, 1, !dbg !513
  br i1 %cmp1, label %if.then, label %lor.lhs.false2, !dbg !514

lor.lhs.false2:                                   ; preds = %lor.lhs.false
  %4 = load i32, ptr %base.addr, align 4, !dbg !515
  %cmp3 = icmp sgt i32 %4, 36, !dbg !516
  br i1 %cmp3, label %if.then, label %if.end, !dbg !517

if.then:                                          ; preds = %lor.lhs.false2, %lor.lhs.false, %entry
  %call = call ptr @__errno_location() #18, !dbg !518
  store i32 22, ptr %call, align 4, !dbg !520
  %5 = load ptr, ptr %number.addr, align 8, !dbg !521
  store ptr %5, ptr %retval, align 8, !dbg !522
  br label %return, !dbg !522

if.end:                                           ; preds = %lor.lhs.false2
  br label %while.cond, !dbg !523

while.cond:                                       ; preds = %while.body, %if.end
  %6 = load ptr, ptr %text.addr, align 8, !dbg !524
  %7 = load i8, ptr %6, align 1, !dbg !525
  %call4 = call i32 @is_space(i8 noundef signext %7) #16, !dbg !526
  %tobool = icmp ne i32 %call4, 0, !dbg !523
  br i1 %tobool, label %while.body, label %while.end, !dbg !523

while.body:                                       ; preds = %while.cond
  %8 = load ptr, ptr %text.addr, align 8, !dbg !527
  %incdec.ptr = getelementptr i8, ptr %8, i32 1, !dbg !527
  store ptr %incdec.ptr, ptr %text.addr, align 8, !dbg !527
  br label %while.cond, !dbg !523, !llvm.loop !528

while.end:                                        ; preds = %while.cond
  %9 = load ptr, ptr %text.addr, align 8, !dbg !529
  %10 = load i8, ptr %9, align 1, !dbg !530
  %conv = sext i8 %10 to i32, !dbg !530
  %cmp5 = icmp eq i32 %conv, 45, !dbg !531
  %conv6 = zext i1 %cmp5 to i32, !dbg !531
  %11 = load ptr, ptr %number.addr, align 8, !dbg !532
  %is_negative7 = getelementptr inbounds %struct.number, ptr %11, i32 0, i32 1, !dbg !533
  store i32 %conv6, ptr %is_negative7, align 8, !dbg !534
  %12 = load ptr, ptr %text.addr, align 8, !dbg !535
  %13 = load i8, ptr %12, align 1, !dbg !537
  %conv8 = sext i8 %13 to i32, !dbg !537
  %cmp9 = icmp eq i32 %conv8, 45, !dbg !538
  br i1 %cmp9, label %if.then15, label %lor.lhs.false11, !dbg !539

lor.lhs.false11:                                  ; preds = %while.end
  %14 = load ptr, ptr %text.addr, align 8, !dbg !540
  %15 = load i8, ptr %14, align 1, !dbg !541
  %conv12 = sext i8 %15 to i32, !dbg !541
  %cmp13 = icmp eq i32 %conv12, 43, !dbg !542
  br i1 %cmp13, label %if.then15, label %if.end17, !dbg !543

if.then15:                                        ; preds = %lor.lhs.false11, %while.end
  %16 = load ptr, ptr %text.addr, align 8, !dbg !544
  %incdec.ptr16 = getelementptr i8, ptr %16, i32 1, !dbg !544
  store ptr %incdec.ptr16, ptr %text.addr, align 8, !dbg !544
  br label %if.end17, !dbg !545

if.end17:                                         ; preds = %if.then15, %lor.lhs.false11
  %17 = load i32, ptr %base.addr, align 4, !dbg !546
  %cmp18 = icmp eq i32 %17, 0, !dbg !548
  br i1 %cmp18, label %land.lhs.true, label %lor.lhs.false20, !dbg !549

lor.lhs.false20:                                  ; preds = %if.end17
  %18 = load i32, ptr %base.addr, align 4, !dbg !550
  %cmp21 = icmp eq i32 %18, 16, !dbg !551
  br i1 %cmp21, label %land.lhs.true, label %if.else, !dbg !552

land.lhs.true:                                    ; preds = %lor.lhs.false20, %if.end17
  %19 = load ptr, ptr %text.addr, align 8, !dbg !553
  %call23 = call i32 @has_prefix(ptr noundef %19) #16, !dbg !554
  %tobool24 = icmp ne i32 %call23, 0, !dbg !554
  br i1 %tobool24, label %if.then25, label %if.else, !dbg !555

if.then25:                                        ; preds = %land.lhs.true
  %20 = load ptr, ptr %text.addr, align 8, !dbg !556
  %add.ptr = getelementptr i8, ptr %20, i64 2, !dbg !556
  store ptr %add.ptr, ptr %text.addr, align 8, !dbg !556
  store i32 16, ptr %base.addr, align 4, !dbg !558
  br label %if.end33, !dbg !559

if.else:                                          ; preds = %land.lhs.true, %lor.lhs.false20
  %21 = load i32, ptr %base.addr, align 4, !dbg !560
  %cmp26 = icmp eq i32 %21, 0, !dbg !562
  br i1 %cmp26, label %if.then28, label %if.end32, !dbg !563

if.then28:                                        ; preds = %if.else
  %22 = load ptr, ptr %text.addr, align 8, !dbg !564
  %23 = load i8, ptr %22, align 1, !dbg !566
  %conv29 = sext i8 %23 to i32, !dbg !566
  %cmp30 = icmp eq i32 %conv29, 48, !dbg !567
  %24 = zext i1 %cmp30 to i64, !dbg !566
  %cond = select i1 %cmp30, i32 8, i32 10, !dbg !566
  store i32 %cond, ptr %base.addr, align 4, !dbg !568
  br label %if.end32, !dbg !569

if.end32:                                         ; preds = %if.then28, %if.else
  br label %if.end33

if.end33:                                         ; preds = %if.end32, %if.then25
  %25 = load ptr, ptr %text.addr, align 8, !dbg !570
  %26 = load i32, ptr %base.addr, align 4, !dbg !571
  %27 = load ptr, ptr %number.addr, align 8, !dbg !572
  call void @read_digits(ptr noundef %25, i32 noundef %26, ptr noundef %27) #16, !dbg !573
  %28 = load ptr, ptr %number.addr, align 8, !dbg !574
  store ptr %28, ptr %retval, align 8, !dbg !575
  br label %return, !dbg !575

return:                                           ; preds = %if.end33, %if.then
  %29 = load ptr, ptr %retval, align 8, !dbg !576
  ret ptr %29, !dbg !576
}

; Function Attrs: noinline nounwind optnone willreturn memory(none) uwtable
define weak dso_local ptr @__errno_location() #7 !dbg !92 {
entry:
  ret ptr @__errno_location.error, !dbg !577
}

; Function Attrs: nocallback nofree nounwind willreturn memory(argmem: readwrite)
declare void @llvm.memcpy.p0.p0.i64(ptr noalias nocapture writeonly, ptr noalias nocapture readonly, i64, i1 immarg) #9

; Function Attrs: noinline nounwind optnone uwtable
define internal i32 @is_space(i8 noundef signext %c) #6 !dbg !578 {
entry:
  %c.addr = alloca i8, align 1
  store i8 %c, ptr %c.addr, align 1
    #dbg_declare(ptr %c.addr, !581, !DIExpression(), !582)
  %0 = load i8, ptr %c.addr, align 1, !dbg !583
  %conv = sext i8 %0 to i32, !dbg !583
  %cmp = icmp eq i32 %conv, 32, !dbg !584
  br i1 %cmp, label %lor.end, label %lor.rhs, !dbg !585

lor.rhs:                                          ; preds = %entry
  %1 = load i8, ptr %c.addr, align 1, !dbg !586
  %conv2 = sext i8 %1 to i32, !dbg !586
  %cmp3 = icmp sge i32 %conv2, 9, !dbg !587
  br i1 %cmp3, label %land.rhs, label %land.end, !dbg !588

land.rhs:                                         ; preds = %lor.rhs
  %2 = load i8, ptr %c.addr, align 1, !dbg !589
  %conv5 = sext i8 %2 to i32, !dbg !589
  %cmp6 = icmp sle i32 %conv5, 13, !dbg !590
  br label %land.end

land.end:                                         ; preds = %land.rhs, %lor.rhs
  %3 = phi i1 [ false, %lor.rhs ], [ %cmp6, %land.rhs ], !dbg !591
  br label %lor.end, !dbg !585

lor.end:                                          ; preds = %land.end, %entry
  %4 = phi i1 [ true, %entry ], [ %3, %land.end ]
  %lor.ext = zext i1 %4 to i32, !dbg !585
  ret i32 %lor.ext, !dbg !592
}

; Function Attrs: noinline nounwind optnone uwtable
define internal i32 @has_prefix(ptr noundef %text) #6 !dbg !593 {
entry:
  %text.addr = alloca ptr, align 8
  store ptr %text, ptr %text.addr, align 8
    #dbg_declare(ptr %text.addr, !594, !DIExpression(), !595)
  %0 = load ptr, ptr %text.addr, align 8, !dbg !596
  %arrayidx = getelementptr i8, ptr %0, i64 0, !dbg !596
  %1 = load i8, ptr %arrayidx, align 1, !dbg !596
  %conv = sext i8 %1 to i32, !dbg !596
  %cmp = icmp eq i32 %conv, 48, !dbg !597
  br i1 %cmp, label %land.lhs.true, label %land.end, !dbg !598

land.lhs.true:                                    ; preds = %entry
  %2 = load ptr, ptr %text.addr, align 8, !dbg !599
  %arrayidx2 = getelementptr i8, ptr %2, i64 1, !dbg !599
  %3 = load i8, ptr %arrayidx2, align 1, !dbg !599
  %conv3 = sext i8 %3 to i32, !dbg !599
  %cmp4 = icmp eq i32 %conv3, 120, !dbg !600
  br i1 %cmp4, label %land.rhs, label %lor.lhs.false, !dbg !601

lor.lhs.false:                                    ; preds = %land.lhs.true
  %4 = load ptr, ptr %text.addr, align 8, !dbg !602
  %arrayidx6 = getelementptr i8, ptr %4, i64 1, !dbg !602
  %5 = load i8, ptr %arrayidx6, align 1, !dbg !602
  %conv7 = sext i8 %5 to i32, !dbg !602
  %cmp8 = icmp eq i32 %conv7, 88, !dbg !603
  br i1 %cmp8, label %land.rhs, label %land.end, !dbg !604

land.rhs:                                         ; preds = %lor.lhs.false, %land.lhs.true
  %6 = load ptr, ptr %text.addr, align 8, !dbg !605
  %arrayidx10 = getelementptr i8, ptr %6, i64 2, !dbg !605
  %7 = load i8, ptr %arrayidx10, align 1, !dbg !605
  %call = call i32 @digit(i8 noundef signext %7) #16, !dbg !606
  %cmp11 = icmp ult i32 %call, 16, !dbg !607
  br label %land.end

land.end:                                         ; preds = %land.rhs, %lor.lhs.false, %entry
  %8 = phi i1 [ false, %lor.lhs.false ], [ false, %entry ], [ %cmp11, %land.rhs ], !dbg !608
  %land.ext = zext i1 %8 to i32, !dbg !604
  ret i32 %land.ext, !dbg !609
}

; Function Attrs: noinline nounwind optnone uwtable
define internal void @read_digits(ptr noundef %text, i32 noundef %base, ptr noundef %number) #6 !dbg !610 {
entry:
  %text.addr = alloca ptr, align 8
  %base.addr = alloca i32, align 4
  %number.addr = alloca ptr, align 8
  %next = alloca i32, align 4
  store ptr %text, ptr %text.addr, align 8
    #dbg_declare(ptr %text.addr, !613, !DIExpression(), !614)
  store i32 %base, ptr %base.addr, align 4
    #dbg_declare(ptr %base.addr, !615, !DIExpression(), !616)
  store ptr %number, ptr %number.addr, align 8
    #dbg_declare(ptr %number.addr, !617, !DIExpression(), !618)
  br label %for.cond, !dbg !619

for.cond:                                         ; preds = %for.inc, %entry
  %0 = load ptr, ptr %text.addr, align 8, !dbg !620
  %1 = load i8, ptr %0, align 1, !dbg !623
  %call = call i32 @digit(i8 noundef signext %1) #16, !dbg !624
  %2 = load i32, ptr %base.addr, align 4, !dbg !625
  %cmp = icmp ult i32 %call, %2, !dbg !626
  br i1 %cmp, label %for.body, label %for.end, !dbg !627

for.body:                                         ; preds = %for.cond
    #dbg_declare(ptr %next, !628, !DIExpression(), !630)
  %3 = load ptr, ptr %text.addr, align 8, !dbg !631
  %4 = load i8, ptr %3, align 1, !dbg !632
  %call1 = call i32 @digit(i8 noundef signext %4) #16, !dbg !633
  store i32 %call1, ptr %next, align 4, !dbg !630
  %5 = load ptr, ptr %number.addr, align 8, !dbg !634
  %magnitude = getelementptr inbounds %struct.number, ptr %5, i32 0, i32 0, !dbg !636
  %6 = load i64, ptr %magnitude, align 8, !dbg !636
  %7 = load i32, ptr %next, align 4, !dbg !637
  %conv = zext i32 %7 to i64, !dbg !637
  %sub = sub i64 -1, %conv, !dbg !638
  %8 = load i32, ptr %base.addr, align 4, !dbg !639
  %conv2 = zext i32 %8 to i64, !dbg !639
  %div = udiv i64 %sub, %conv2, !dbg !640
  %cmp3 = icmp ugt i64 %6, %div, !dbg !641
  br i1 %cmp3, label %if.then, label %if.end, !dbg !642

if.then:                                          ; preds = %for.body
  %9 = load ptr, ptr %number.addr, align 8, !dbg !643
  %is_too_large = getelementptr inbounds %struct.number, ptr %9, i32 0, i32 2, !dbg !644
  store i32 1, ptr %is_too_large, align 4, !dbg !645
  br label %if.end, !dbg !643

if.end:                                           ; preds = %if.then, %for.body
  %10 = load ptr, ptr %number.addr, align 8, !dbg !646
  %magnitude5 = getelementptr inbounds %struct.number, ptr %10, i32 0, i32 0, !dbg !647
  %11 = load i64, ptr %magnitude5, align 8, !dbg !647
  %12 = load i32, ptr %base.addr, align 4, !dbg !648
  %conv6 = zext i32 %12 to i64, !dbg !648
  %mul = mul i64 %11, %conv6, !dbg !649
  %13 = load i32, ptr %next, align 4, !dbg !650
  %conv7 = zext i32 %13 to i64, !dbg !650
  %add = add i64 %mul, %conv7, !dbg !651
  %14 = load ptr, ptr %number.addr, align 8, !dbg !652
  %magnitude8 = getelementptr inbounds %struct.number, ptr %14, i32 0, i32 0, !dbg !653
  store i64 %add, ptr %magnitude8, align 8, !dbg !654
  %15 = load ptr, ptr %text.addr, align 8, !dbg !655
  %add.ptr = getelementptr i8, ptr %15, i64 1, !dbg !656
  %16 = load ptr, ptr %number.addr, align 8, !dbg !657
  %end = getelementptr inbounds %struct.number, ptr %16, i32 0, i32 3, !dbg !658
  store ptr %add.ptr, ptr %end, align 8, !dbg !659
  br label %for.inc, !dbg !660

for.inc:                                          ; preds = %if.end
  %17 = load ptr, ptr %text.addr, align 8, !dbg !661
  %incdec.ptr = getelementptr i8, ptr %17, i32 1, !dbg !661
  store ptr %incdec.ptr, ptr %text.addr, align 8, !dbg !661
  br label %for.cond, !dbg !662, !llvm.loop !663

for.end:                                          ; preds = %for.cond
  %18 = load ptr, ptr %number.addr, align 8, !dbg !665
  %is_too_large9 = getelementptr inbounds %struct.number, ptr %18, i32 0, i32 2, !dbg !667
  %19 = load i32, ptr %is_too_large9, align 4, !dbg !667
  %tobool = icmp ne i32 %19, 0, !dbg !665
  br i1 %tobool, label %if.then10, label %if.end12, !dbg !668

if.then10:                                        ; preds = %for.end
  %20 = load ptr, ptr %number.addr, align 8, !dbg !669
  %magnitude11 = getelementptr inbounds %struct.number, ptr %20, i32 0, i32 0, !dbg !670
  store i64 -1, ptr %magnitude11, align 8, !dbg !671
  br label %if.end12, !dbg !669

if.end12:                                         ; preds = %if.then10, %for.end
  ret void, !dbg !672
}

; Function Attrs: noinline nounwind optnone uwtable
define internal i32 @digit(i8 noundef signext %c) #6 !dbg !673 {
entry:
  %retval = alloca i32, align 4
  %c.addr = alloca i8, align 1
  store i8 %c, ptr %c.addr, align 1
    #dbg_declare(ptr %c.addr, !676, !DIExpression(), !677)
  %0 = load i8, ptr %c.addr, align 1, !dbg !678
  %conv = sext i8 %0 to i32, !dbg !678
  %cmp = icmp sge i32 %conv, 48, !dbg !680
  br i1 %cmp, label %land.lhs.true, label %if.end, !dbg !681

land.lhs.true:                                    ; preds = %entry
  %1 = load i8, ptr %c.addr, align 1, !dbg !682
  %conv2 = sext i8 %1 to i32, !dbg !682
  %cmp3 = icmp sle i32 %conv2, 57, !dbg !683
  br i1 %cmp3, label %if.then, label %if.end, !dbg !684

if.then:                                          ; preds = %land.lhs.true
  %2 = load i8, ptr %c.addr, align 1, !dbg !685
  %conv5 = sext i8 %2 to i32, !dbg !685
  %sub = sub i32 %conv5, 48, !dbg !686
  store i32 %sub, ptr %retval, align 4, !dbg !687
  br label %return, !dbg !687

if.end:                                           ; preds = %land.lhs.true, %entry
  %3 = load i8, ptr %c.addr, align 1, !dbg !688
  %conv6 = sext i8 %3 to i32, !dbg !688
  %cmp7 = icmp sge i32 %conv6, 97, !dbg !690
  br i1 %cmp7, label %land.lhs.true9, label %if.end16, !dbg !691

land.lhs.true9:                                   ; preds = %if.end
  %4 = load i8, ptr %c.addr, align 1, !dbg !692
  %conv10 = sext i8 %4 to i32, !dbg !692
  %cmp11 = icmp sle i32 %conv10, 122, !dbg !693
  br i1 %cmp11, label %if.then13, label %if.end16, !dbg !694

if.then13:                                        ; preds = %land.lhs.true9
  %5 = load i8, ptr %c.addr, align 1, !dbg !695
  %conv14 = sext i8 %5 to i32, !dbg !695
  %sub15 = sub i32 %conv14, 97, !dbg !696
  %add = add i32 %sub15, 10, !dbg !697
  store i32 %add, ptr %retval, align 4, !dbg !698
  br label %return, !dbg !698

if.end16:                                         ; preds = %land.lhs.true9, %if.end
  %6 = load i8, ptr %c.addr, align 1, !dbg !699
  %conv17 = sext i8 %6 to i32, !dbg !699
  %cmp18 = icmp sge i32 %conv17, 65, !dbg !701
  br i1 %cmp18, label %land.lhs.true20, label %if.end28, !dbg !702

land.lhs.true20:                                  ; preds = %if.end16
  %7 = load i8, ptr %c.addr, align 1, !dbg !703
  %conv21 = sext i8 %7 to i32, !dbg !703
  %cmp22 = icmp sle i32 %conv21, 90, !dbg !704
  br i1 %cmp22, label %if.then24, label %if.end28, !dbg !705

if.then24:                                        ; preds = %land.lhs.true20
  %8 = load i8, ptr %c.addr, align 1, !dbg !706
  %conv25 = sext i8 %8 to i32, !dbg !706
  %sub26 = sub i32 %conv25, 65, !dbg !707
  %add27 = add i32 %sub26, 10, !dbg !708
  store i32 %add27, ptr %retval, align 4, !dbg !709
  br label %return, !dbg !709

if.end28:                                         ; preds = %land.lhs.true20, %if.end16
  store i32 36, ptr %retval, align 4, !dbg !710
  br label %return, !dbg !710

return:                                           ; preds = %if.end28, %if.then24, %if.then13, %if.then
  %9 = load i32, ptr %retval, align 4, !dbg !711
  ret i32 %9, !dbg !711
}

; Function Attrs: noinline nounwind optnone uwtable
define weak dso_local ptr @strcpy(ptr noalias noundef nonnull %to, ptr noalias noundef nonnull %from) #6 !dbg !712 {
entry:
  %to.addr = alloca ptr, align 8
  %from.addr = alloca ptr, align 8
  %k = alloca i64, align 8
  store ptr %to, ptr %to.addr, align 8
    #dbg_declare(ptr %to.addr, !713, !DIExpression(), !714)
  store ptr %from, ptr %from.addr, align 8
    #dbg_declare(ptr %from.addr, !715, !DIExpression(), !716)
    #dbg_declare(ptr %k, !717, !DIExpression(), !718)
  store i64 0, ptr %k, align 8, !dbg !718
  br label %while.cond, !dbg !719

while.cond:                                       ; preds = %while.body, %entry
  %0 = load ptr, ptr %from.addr, align 8, !dbg !720
  %1 = load i64, ptr %k, align 8, !dbg !721
  %arrayidx = getelementptr i8, ptr %0, i64 %1, !dbg !720
  %2 = load i8, ptr %arrayidx, align 1, !dbg !720
  %3 = load ptr, ptr %to.addr, align 8, !dbg !722
  %4 = load i64, ptr %k, align 8, !dbg !723
  %arrayidx1 = getelementptr i8, ptr %3, i64 %4, !dbg !722
  store i8 %2, ptr %arrayidx1, align 1, !dbg !724
  %tobool = icmp ne i8 %2, 0, !dbg !719
  br i1 %tobool, label %while.body, label %while.end, !dbg !719

while.body:                                       ; preds = %while.cond
  %5 = load i64, ptr %k, align 8, !dbg !725
  %inc = add i64 %5, 1, !dbg !725
  store i64 %inc, ptr %k, align 8, !dbg !725
  br label %while.cond, !dbg !719, !llvm.loop !726

while.end:                                        ; preds = %while.cond
  %6 = load ptr, ptr %to.addr, align 8, !dbg !727
  ret ptr %6, !dbg !728
}

; Function Attrs: noinline nounwind optnone uwtable
define weak dso_local ptr @strcat(ptr noalias noundef nonnull %to, ptr noalias noundef nonnull %from) #6 !dbg !729 {
entry:
  %to.addr = alloca ptr, align 8
  %from.addr = alloca ptr, align 8
  %end = alloca ptr, align 8
  store ptr %to, ptr %to.addr, align 8
    #dbg_declare(ptr %to.addr, !730, !DIExpression(), !731)
  store ptr %from, ptr %from.addr, align 8
    #dbg_declare(ptr %from.addr, !732, !DIExpression(), !733)
    #dbg_declare(ptr %end, !734, !DIExpression(), !735)
  %0 = load ptr, ptr %to.addr, align 8, !dbg !736
  store ptr %0, ptr %end, align 8, !dbg !735
  br label %while.cond, !dbg !737

while.cond:                                       ; preds = %while.body, %entry
  %1 = load ptr, ptr %end, align 8, !dbg !738
  %2 = load i8, ptr %1, align 1, !dbg !739
  %tobool = icmp ne i8 %2, 0, !dbg !737
  br i1 %tobool, label %while.body, label %while.end, !dbg !737

while.body:                                       ; preds = %while.cond
  %3 = load ptr, ptr %end, align 8, !dbg !740
  %incdec.ptr = getelementptr i8, ptr %3, i32 1, !dbg !740
  store ptr %incdec.ptr, ptr %end, align 8, !dbg !740
  br label %while.cond, !dbg !737, !llvm.loop !741

while.end:                                        ; preds = %while.cond
  br label %for.cond, !dbg !742

for.cond:                                         ; preds = %for.inc, %while.end
  %4 = load ptr, ptr %from.addr, align 8, !dbg !743
  %5 = load i8, ptr %4, align 1, !dbg !746
  %6 = load ptr, ptr %end, align 8, !dbg !747
  store i8 %5, ptr %6, align 1, !dbg !748
  %tobool1 = icmp ne i8 %5, 0, !dbg !749
  br i1 %tobool1, label %for.body, label %for.end, !dbg !749

for.body:                                         ; preds = %for.cond
  %7 = load ptr, ptr %from.addr, align 8, !dbg !750
  %incdec.ptr2 = getelementptr i8, ptr %7, i32 1, !dbg !750
  store ptr %incdec.ptr2, ptr %from.addr, align 8, !dbg !750
  br label %for.inc, !dbg !751

for.inc:                                          ; preds = %for.body
  %8 = load ptr, ptr %end, align 8, !dbg !752
  %incdec.ptr3 = getelementptr i8, ptr %8, i32 1, !dbg !752
  store ptr %incdec.ptr3, ptr %end, align 8, !dbg !752
  br label %for.cond, !dbg !753, !llvm.loop !754

for.end:                                          ; preds = %for.cond
  %9 = load ptr, ptr %to.addr, align 8, !dbg !756
  ret ptr %9, !dbg !757
}

; Function Attrs: noinline nounwind optnone uwtable
define weak dso_local noalias ptr @strdup(ptr noundef nonnull %text) #6 !dbg !758 {
entry:
  %text.addr = alloca ptr, align 8
  %length = alloca i64, align 8
  %copy = alloca ptr, align 8
  store ptr %text, ptr %text.addr, align 8
    #dbg_declare(ptr %text.addr, !761, !DIExpression(), !762)
    #dbg_declare(ptr %length, !763, !DIExpression(), !764)
  store i64 0, ptr %length, align 8, !dbg !764
  br label %while.cond, !dbg !765

while.cond:                                       ; preds = %while.body, %entry
  %0 = load ptr, ptr %text.addr, align 8, !dbg !766
  %1 = load i64, ptr %length, align 8, !dbg !767
  %arrayidx = getelementptr i8, ptr %0, i64 %1, !dbg !766
  %2 = load i8, ptr %arrayidx, align 1, !dbg !766
  %tobool = icmp ne i8 %2, 0, !dbg !765
  br i1 %tobool, label %while.body, label %while.end, !dbg !765

while.body:                                       ; preds = %while.cond
  %3 = load i64, ptr %length, align 8, !dbg !768
  %inc = add i64 %3, 1, !dbg !768
  store i64 %inc, ptr %length, align 8, !dbg !768
  br label %while.cond, !dbg !765, !llvm.loop !769

while.end:                                        ; preds = %while.cond
    #dbg_declare(ptr %copy, !770, !DIExpression(), !771)
  %4 = load i64, ptr %length, align 8, !dbg !772
  %add = add i64 %4, 1, !dbg !773
  %call = call noalias ptr @malloc(i64 noundef %add) #19, !dbg !774
  store ptr %call, ptr %copy, align 8, !dbg !771
  %5 = load ptr, ptr %copy, align 8, !dbg !775
  %tobool1 = icmp ne ptr %5, null, !dbg !775
  br i1 %tobool1, label %if.then, label %if.end, !dbg !777

if.then:                                          ; preds = %while.end
  %6 = load ptr, ptr %copy, align 8, !dbg !778
  %7 = load ptr, ptr %text.addr, align 8, !dbg !779
  %8 = load i64, ptr %length, align 8, !dbg !780
  %add2 = add i64 %8, 1, !dbg !781
  %call3 = call ptr @memcpy(ptr noundef %6, ptr noundef %7, i64 noundef %add2) #19, !dbg !782
  br label %if.end, !dbg !782

if.end:                                           ; preds = %if.then, %while.end
  %9 = load ptr, ptr %copy, align 8, !dbg !783
  ret ptr %9, !dbg !784
}

; Function Attrs: nounwind
declare dso_local ptr @memcpy(ptr noundef, ptr noundef, i64 noundef) #10

; Function Attrs: noinline nounwind optnone willreturn memory(read) uwtable
define weak dso_local i32 @strcmp(ptr noundef nonnull %one, ptr noundef nonnull %two) #8 !dbg !785 {
entry:
  %one.addr = alloca ptr, align 8
  %two.addr = alloca ptr, align 8
  store ptr %one, ptr %one.addr, align 8
    #dbg_declare(ptr %one.addr, !788, !DIExpression(), !789)
  store ptr %two, ptr %two.addr, align 8
    #dbg_declare(ptr %two.addr, !790, !DIExpression(), !791)
  br label %for.cond, !dbg !792

for.cond:                                         ; preds = %for.inc, %entry
  %0 = load ptr, ptr %one.addr, align 8, !dbg !793
  %1 = load i8, ptr %0, align 1, !dbg !796
  %conv = sext i8 %1 to i32, !dbg !796
  %tobool = icmp ne i32 %conv, 0, !dbg !796
  br i1 %tobool, label %land.rhs, label %land.end, !dbg !797

land.rhs:                                         ; preds = %for.cond
  %2 = load ptr, ptr %one.addr, align 8, !dbg !798
  %3 = load i8, ptr %2, align 1, !dbg !799
  %conv1 = sext i8 %3 to i32, !dbg !799
  %4 = load ptr, ptr %two.addr, align 8, !dbg !800
  %5 = load i8, ptr %4, align 1, !dbg !801
  %conv2 = sext i8 %5 to i32, !dbg !801
  %cmp = icmp eq i32 %conv1, %conv2, !dbg !802
  br label %land.end

land.end:                                         ; preds = %land.rhs, %for.cond
  %6 = phi i1 [ false, %for.cond ], [ %cmp, %land.rhs ], !dbg !803
  br i1 %6, label %for.body, label %for.end, !dbg !804

for.body:                                         ; preds = %land.end
  %7 = load ptr, ptr %two.addr, align 8, !dbg !805
  %incdec.ptr = getelementptr i8, ptr %7, i32 1, !dbg !805
  store ptr %incdec.ptr, ptr %two.addr, align 8, !dbg !805
  br label %for.inc, !dbg !806

for.inc:                                          ; preds = %for.body
  %8 = load ptr, ptr %one.addr, align 8, !dbg !807
  %incdec.ptr4 = getelementptr i8, ptr %8, i32 1, !dbg !807
  store ptr %incdec.ptr4, ptr %one.addr, align 8, !dbg !807
  br label %for.cond, !dbg !808, !llvm.loop !809

for.end:                                          ; preds = %land.end
  %9 = load ptr, ptr %one.addr, align 8, !dbg !811
  %10 = load i8, ptr %9, align 1, !dbg !812
  %conv5 = zext i8 %10 to i32, !dbg !813
  %11 = load ptr, ptr %two.addr, align 8, !dbg !814
  %12 = load i8, ptr %11, align 1, !dbg !815
  %conv6 = zext i8 %12 to i32, !dbg !816
  %sub = sub i32 %conv5, %conv6, !dbg !817
  ret i32 %sub, !dbg !818
}

; Function Attrs: noinline nounwind optnone willreturn memory(read) uwtable
define weak dso_local ptr @strchr(ptr noundef nonnull %text, i32 noundef %wanted) #8 !dbg !819 {
entry:
  %retval = alloca ptr, align 8
  %text.addr = alloca ptr, align 8
  %wanted.addr = alloca i32, align 4
  store ptr %text, ptr %text.addr, align 8
    #dbg_declare(ptr %text.addr, !822, !DIExpression(), !823)
  store i32 %wanted, ptr %wanted.addr, align 4
    #dbg_declare(ptr %wanted.addr, !824, !DIExpression(), !825)
  br label %for.cond, !dbg !826

for.cond:                                         ; preds = %for.inc, %entry
  %0 = load ptr, ptr %text.addr, align 8, !dbg !827
  %1 = load i8, ptr %0, align 1, !dbg !830
  %conv = sext i8 %1 to i32, !dbg !830
  %2 = load i32, ptr %wanted.addr, align 4, !dbg !831
  %conv1 = trunc i32 %2 to i8, !dbg !832
  %conv2 = sext i8 %conv1 to i32, !dbg !832
  %cmp = icmp ne i32 %conv, %conv2, !dbg !833
  br i1 %cmp, label %for.body, label %for.end, !dbg !834

for.body:                                         ; preds = %for.cond
  %3 = load ptr, ptr %text.addr, align 8, !dbg !835
  %4 = load i8, ptr %3, align 1, !dbg !837
  %tobool = icmp ne i8 %4, 0, !dbg !837
  br i1 %tobool, label %if.end, label %if.then, !dbg !838

if.then:                                          ; preds = %for.body
  store ptr null, ptr %retval, align 8, !dbg !839
  br label %return, !dbg !839

if.end:                                           ; preds = %for.body
  br label %for.inc, !dbg !835

for.inc:                                          ; preds = %if.end
  %5 = load ptr, ptr %text.addr, align 8, !dbg !840
  %incdec.ptr = getelementptr i8, ptr %5, i32 1, !dbg !840
  store ptr %incdec.ptr, ptr %text.addr, align 8, !dbg !840
  br label %for.cond, !dbg !841, !llvm.loop !842

for.end:                                          ; preds = %for.cond
  %6 = load ptr, ptr %text.addr, align 8, !dbg !844
  store ptr %6, ptr %retval, align 8, !dbg !845
  br label %return, !dbg !845

return:                                           ; preds = %for.end, %if.then
  %7 = load ptr, ptr %retval, align 8, !dbg !846
  ret ptr %7, !dbg !846
}

; Function Attrs: noinline nounwind optnone willreturn memory(read) uwtable
define weak dso_local i64 @strspn(ptr noundef nonnull %text, ptr noundef nonnull %accepted) #8 !dbg !847 {
entry:
  %text.addr = alloca ptr, align 8
  %accepted.addr = alloca ptr, align 8
  %length = alloca i64, align 8
  store ptr %text, ptr %text.addr, align 8
    #dbg_declare(ptr %text.addr, !850, !DIExpression(), !851)
  store ptr %accepted, ptr %accepted.addr, align 8
    #dbg_declare(ptr %accepted.addr, !852, !DIExpression(), !853)
    #dbg_declare(ptr %length, !854, !DIExpression(), !855)
  store i64 0, ptr %length, align 8, !dbg !855
  br label %while.cond, !dbg !856

while.cond:                                       ; preds = %while.body, %entry
  %0 = load ptr, ptr %text.addr, align 8, !dbg !857
  %1 = load i64, ptr %length, align 8, !dbg !858
  %arrayidx = getelementptr i8, ptr %0, i64 %1, !dbg !857
  %2 = load i8, ptr %arrayidx, align 1, !dbg !857
  %conv = sext i8 %2 to i32, !dbg !857
  %tobool = icmp ne i32 %conv, 0, !dbg !857
  br i1 %tobool, label %land.rhs, label %land.end, !dbg !859

land.rhs:                                         ; preds = %while.cond
  %3 = load ptr, ptr %text.addr, align 8, !dbg !860
  %4 = load i64, ptr %length, align 8, !dbg !861
  %arrayidx1 = getelementptr i8, ptr %3, i64 %4, !dbg !860
  %5 = load i8, ptr %arrayidx1, align 1, !dbg !860
  %6 = load ptr, ptr %accepted.addr, align 8, !dbg !862
  %call = call i32 @is_among(i8 noundef signext %5, ptr noundef %6) #16, !dbg !863
  %tobool2 = icmp ne i32 %call, 0, !dbg !859
  br label %land.end

land.end:                                         ; preds = %land.rhs, %while.cond
  %7 = phi i1 [ false, %while.cond ], [ %tobool2, %land.rhs ], !dbg !864
  br i1 %7, label %while.body, label %while.end, !dbg !856

while.body:                                       ; preds = %land.end
  %8 = load i64, ptr %length, align 8, !dbg !865
  %inc = add i64 %8, 1, !dbg !865
  store i64 %inc, ptr %length, align 8, !dbg !865
  br label %while.cond, !dbg !856, !llvm.loop !866

while.end:                                        ; preds = %land.end
  %9 = load i64, ptr %length, align 8, !dbg !867
  ret i64 %9, !dbg !868
}

; Function Attrs: noinline nounwind optnone uwtable
define internal i32 @is_among(i8 noundef signext %wanted, ptr noundef %set) #6 !dbg !869 {
entry:
  %retval = alloca i32, align 4
  %wanted.addr = alloca i8, align 1
  %set.addr = alloca ptr, align 8
  store i8 %wanted, ptr %wanted.addr, align 1
    #dbg_declare(ptr %wanted.addr, !872, !DIExpression(), !873)
  store ptr %set, ptr %set.addr, align 8
    #dbg_declare(ptr %set.addr, !874, !DIExpression(), !875)
  br label %for.cond, !dbg !876

for.cond:                                         ; preds = %for.inc, %entry
  %0 = load ptr, ptr %set.addr, align 8, !dbg !877
  %1 = load i8, ptr %0, align 1, !dbg !880
  %tobool = icmp ne i8 %1, 0, !dbg !881
  br i1 %tobool, label %for.body, label %for.end, !dbg !881

for.body:                                         ; preds = %for.cond
  %2 = load ptr, ptr %set.addr, align 8, !dbg !882
  %3 = load i8, ptr %2, align 1, !dbg !884
  %conv = sext i8 %3 to i32, !dbg !884
  %4 = load i8, ptr %wanted.addr, align 1, !dbg !885
  %conv1 = sext i8 %4 to i32, !dbg !885
  %cmp = icmp eq i32 %conv, %conv1, !dbg !886
  br i1 %cmp, label %if.then, label %if.end, !dbg !887

if.then:                                          ; preds = %for.body
  store i32 1, ptr %retval, align 4, !dbg !888
  br label %return, !dbg !888

if.end:                                           ; preds = %for.body
  br label %for.inc, !dbg !885

for.inc:                                          ; preds = %if.end
  %5 = load ptr, ptr %set.addr, align 8, !dbg !889
  %incdec.ptr = getelementptr i8, ptr %5, i32 1, !dbg !889
  store ptr %incdec.ptr, ptr %set.addr, align 8, !dbg !889
  br label %for.cond, !dbg !890, !llvm.loop !891

for.end:                                          ; preds = %for.cond
  store i32 0, ptr %retval, align 4, !dbg !893
  br label %return, !dbg !893

return:                                           ; preds = %for.end, %if.then
  %6 = load i32, ptr %retval, align 4, !dbg !894
  ret i32 %6, !dbg !894
}

; Function Attrs: noinline nounwind optnone uwtable
define weak dso_local ptr @strtok(ptr noalias noundef %text, ptr noalias noundef nonnull %separators) #6 !dbg !101 {
entry:
  %text.addr = alloca ptr, align 8
  %separators.addr = alloca ptr, align 8
  store ptr %text, ptr %text.addr, align 8
    #dbg_declare(ptr %text.addr, !895, !DIExpression(), !896)
  store ptr %separators, ptr %separators.addr, align 8
    #dbg_declare(ptr %separators.addr, !897, !DIExpression(), !898)
  %0 = load ptr, ptr %text.addr, align 8, !dbg !899
  %1 = load ptr, ptr %separators.addr, align 8, !dbg !900
  %call = call ptr @next_token(ptr noundef %0, ptr noundef %1, ptr noundef @strtok.rest) #16, !dbg !901
  ret ptr %call, !dbg !902
}

; Function Attrs: noinline nounwind optnone uwtable
define internal ptr @next_token(ptr noundef %text, ptr noundef %separators, ptr noundef %rest) #6 !dbg !903 {
entry:
  %retval = alloca ptr, align 8
  %text.addr = alloca ptr, align 8
  %separators.addr = alloca ptr, align 8
  %rest.addr = alloca ptr, align 8
  store ptr %text, ptr %text.addr, align 8
    #dbg_declare(ptr %text.addr, !906, !DIExpression(), !907)
  store ptr %separators, ptr %separators.addr, align 8
    #dbg_declare(ptr %separators.addr, !908, !DIExpression(), !909)
  store ptr %rest, ptr %rest.addr, align 8
    #dbg_declare(ptr %rest.addr, !910, !DIExpression(), !911)
  %0 = load ptr, ptr %text.addr, align 8, !dbg !912
  %tobool = icmp ne ptr %0, null, !dbg !912
  br i1 %tobool, label %if.end, label %if.then, !dbg !914

if.then:                                          ; preds = %entry
  %1 = load ptr, ptr %rest.addr, align 8, !dbg !915
  %2 = load ptr, ptr %1, align 8, !dbg !916
  store ptr %2, ptr %text.addr, align 8, !dbg !917
  br label %if.end, !dbg !918

if.end:                                           ; preds = %if.then, %entry
  br label %while.cond, !dbg !919

while.cond:                                       ; preds = %while.body, %if.end
  %3 = load ptr, ptr %text.addr, align 8, !dbg !920
  %tobool1 = icmp ne ptr %3, null, !dbg !920
  br i1 %tobool1, label %land.lhs.true, label %land.end, !dbg !921

land.lhs.true:                                    ; preds = %while.cond
  %4 = load ptr, ptr %text.addr, align 8, !dbg !922
  %5 = load i8, ptr %4, align 1, !dbg !923
  %conv = sext i8 %5 to i32, !dbg !923
  %tobool2 = icmp ne i32 %conv, 0, !dbg !923
  br i1 %tobool2, label %land.rhs, label %land.end, !dbg !924

land.rhs:                                         ; preds = %land.lhs.true
  %6 = load ptr, ptr %text.addr, align 8, !dbg !925
  %7 = load i8, ptr %6, align 1, !dbg !926
  %8 = load ptr, ptr %separators.addr, align 8, !dbg !927
  %call = call i32 @is_among(i8 noundef signext %7, ptr noundef %8) #16, !dbg !928
  %tobool3 = icmp ne i32 %call, 0, !dbg !924
  br label %land.end

land.end:                                         ; preds = %land.rhs, %land.lhs.true, %while.cond
  %9 = phi i1 [ false, %land.lhs.true ], [ false, %while.cond ], [ %tobool3, %land.rhs ], !dbg !929
  br i1 %9, label %while.body, label %while.end, !dbg !919

while.body:                                       ; preds = %land.end
  %10 = load ptr, ptr %text.addr, align 8, !dbg !930
  %incdec.ptr = getelementptr i8, ptr %10, i32 1, !dbg !930
  store ptr %incdec.ptr, ptr %text.addr, align 8, !dbg !930
  br label %while.cond, !dbg !919, !llvm.loop !931

while.end:                                        ; preds = %land.end
  %11 = load ptr, ptr %text.addr, align 8, !dbg !932
  %tobool4 = icmp ne ptr %11, null, !dbg !932
  br i1 %tobool4, label %lor.lhs.false, label %if.then6, !dbg !934

lor.lhs.false:                                    ; preds = %while.end
  %12 = load ptr, ptr %text.addr, align 8, !dbg !935
  %13 = load i8, ptr %12, align 1, !dbg !936
  %tobool5 = icmp ne i8 %13, 0, !dbg !936
  br i1 %tobool5, label %if.end7, label %if.then6, !dbg !937

if.then6:                                         ; preds = %lor.lhs.false, %while.end
  %14 = load ptr, ptr %rest.addr, align 8, !dbg !938
  store ptr null, ptr %14, align 8, !dbg !939
  store ptr null, ptr %retval, align 8, !dbg !940
  br label %return, !dbg !940

if.end7:                                          ; preds = %lor.lhs.false
  %15 = load ptr, ptr %text.addr, align 8, !dbg !941
  %16 = load ptr, ptr %separators.addr, align 8, !dbg !942
  %call8 = call ptr @cut(ptr noundef %15, ptr noundef %16) #16, !dbg !943
  %17 = load ptr, ptr %rest.addr, align 8, !dbg !944
  store ptr %call8, ptr %17, align 8, !dbg !945
  %18 = load ptr, ptr %text.addr, align 8, !dbg !946
  store ptr %18, ptr %retval, align 8, !dbg !947
  br label %return, !dbg !947

return:                                           ; preds = %if.end7, %if.then6
  %19 = load ptr, ptr %retval, align 8, !dbg !948
  ret ptr %19, !dbg !948
}

; Function Attrs: noinline nounwind optnone uwtable
define internal ptr @cut(ptr noundef %text, ptr noundef %separators) #6 !dbg !949 {
entry:
  %retval = alloca ptr, align 8
  %text.addr = alloca ptr, align 8
  %separators.addr = alloca ptr, align 8
  %end = alloca ptr, align 8
  store ptr %text, ptr %text.addr, align 8
    #dbg_declare(ptr %text.addr, !952, !DIExpression(), !953)
  store ptr %separators, ptr %separators.addr, align 8
    #dbg_declare(ptr %separators.addr, !954, !DIExpression(), !955)
    #dbg_declare(ptr %end, !956, !DIExpression(), !957)
  %0 = load ptr, ptr %text.addr, align 8, !dbg !958
  %1 = load ptr, ptr %text.addr, align 8, !dbg !959
  %2 = load ptr, ptr %separators.addr, align 8, !dbg !960
  %call = call i64 @length_before(ptr noundef %1, ptr noundef %2) #16, !dbg !961
  %add.ptr = getelementptr i8, ptr %0, i64 %call, !dbg !962
  store ptr %add.ptr, ptr %end, align 8, !dbg !957
  %3 = load ptr, ptr %end, align 8, !dbg !963
  %4 = load i8, ptr %3, align 1, !dbg !965
  %tobool = icmp ne i8 %4, 0, !dbg !965
  br i1 %tobool, label %if.end, label %if.then, !dbg !966

if.then:                                          ; preds = %entry
  store ptr null, ptr %retval, align 8, !dbg !967
  br label %return, !dbg !967

if.end:                                           ; preds = %entry
  %5 = load ptr, ptr %end, align 8, !dbg !968
  store i8 0, ptr %5, align 1, !dbg !969
  %6 = load ptr, ptr %end, align 8, !dbg !970
  %add.ptr1 = getelementptr i8, ptr %6, i64 1, !dbg !971
  store ptr %add.ptr1, ptr %retval, align 8, !dbg !972
  br label %return, !dbg !972

return:                                           ; preds = %if.end, %if.then
  %7 = load ptr, ptr %retval, align 8, !dbg !973
  ret ptr %7, !dbg !973
}

; Function Attrs: noinline nounwind optnone uwtable
define internal i64 @length_before(ptr noundef %text, ptr noundef %set) #6 !dbg !974 {
entry:
  %text.addr = alloca ptr, align 8
  %set.addr = alloca ptr, align 8
  %length = alloca i64, align 8
  store ptr %text, ptr %text.addr, align 8
    #dbg_declare(ptr %text.addr, !975, !DIExpression(), !976)
  store ptr %set, ptr %set.addr, align 8
    #dbg_declare(ptr %set.addr, !977, !DIExpression(), !978)
    #dbg_declare(ptr %length, !979, !DIExpression(), !980)
  store i64 0, ptr %length, align 8, !dbg !980
  br label %while.cond, !dbg !981

while.cond:                                       ; preds = %while.body, %entry
  %0 = load ptr, ptr %text.addr, align 8, !dbg !982
  %1 = load i64, ptr %length, align 8, !dbg !983
  %arrayidx = getelementptr i8, ptr %0, i64 %1, !dbg !982
  %2 = load i8, ptr %arrayidx, align 1, !dbg !982
  %conv = sext i8 %2 to i32, !dbg !982
  %tobool = icmp ne i32 %conv, 0, !dbg !982
  br i1 %tobool, label %land.rhs, label %land.end, !dbg !984

land.rhs:                                         ; preds = %while.cond
  %3 = load ptr, ptr %text.addr, align 8, !dbg !985
  %4 = load i64, ptr %length, align 8, !dbg !986
  %arrayidx1 = getelementptr i8, ptr %3, i64 %4, !dbg !985
  %5 = load i8, ptr %arrayidx1, align 1, !dbg !985
  %6 = load ptr, ptr %set.addr, align 8, !dbg !987
  %call = call i32 @is_among(i8 noundef signext %5, ptr noundef %6) #16, !dbg !988
  %tobool2 = icmp ne i32 %call, 0, !dbg !989
  %lnot = xor i1 %tobool2, true, !dbg !989
  br label %land.end

land.end:                                         ; preds = %land.rhs, %while.cond
  %7 = phi i1 [ false, %while.cond ], [ %lnot, %land.rhs ], !dbg !990
  br i1 %7, label %while.body, label %while.end, !dbg !981

while.body:                                       ; preds = %land.end
  %8 = load i64, ptr %length, align 8, !dbg !991
  %inc = add i64 %8, 1, !dbg !991
  store i64 %inc, ptr %length, align 8, !dbg !991
  br label %while.cond, !dbg !981, !llvm.loop !992

while.end:                                        ; preds = %land.end
  %9 = load i64, ptr %length, align 8, !dbg !993
  ret i64 %9, !dbg !994
}

attributes #0 = { nounwind uwtable "min-legal-vector-width"="0" "no-trapping-math"="true" "stack-protector-buffer-size"="8" "target-cpu"="x86-64" "target-features"="+cmov,+cx8,+fxsr,+mmx,+sse,+sse2,+x87" "tune-cpu"="generic" }
attributes #1 = { nocallback nofree nosync nounwind willreturn memory(argmem: readwrite) }
attributes #2 = { nounwind allocsize(0) "no-trapping-math"="true" "stack-protector-buffer-size"="8" "target-cpu"="x86-64" "target-features"="+cmov,+cx8,+fxsr,+mmx,+sse,+sse2,+x87" "tune-cpu"="generic" }
attributes #3 = { "no-trapping-math"="true" "stack-protector-buffer-size"="8" "target-cpu"="x86-64" "target-features"="+cmov,+cx8,+fxsr,+mmx,+sse,+sse2,+x87" "tune-cpu"="generic" }
attributes #4 = { noinline noreturn nounwind optnone uwtable "frame-pointer"="all" "min-legal-vector-width"="0" "no-builtins" "no-trapping-math"="true" "stack-protector-buffer-size"="8" "target-cpu"="x86-64" "target-features"="+cmov,+cx8,+fxsr,+mmx,+sse,+sse2,+x87" "tune-cpu"="generic" }
attributes #5 = { noreturn nounwind "frame-pointer"="all" "no-builtins" "no-trapping-math"="true" "stack-protector-buffer-size"="8" "target-cpu"="x86-64" "target-features"="+cmov,+cx8,+fxsr,+mmx,+sse,+sse2,+x87" "tune-cpu"="generic" }
attributes #6 = { noinline nounwind optnone uwtable "frame-pointer"="all" "min-legal-vector-width"="0" "no-builtins" "no-trapping-math"="true" "stack-protector-buffer-size"="8" "target-cpu"="x86-64" "target-features"="+cmov,+cx8,+fxsr,+mmx,+sse,+sse2,+x87" "tune-cpu"="generic" }
attributes #7 = { noinline nounwind optnone willreturn memory(none) uwtable "frame-pointer"="all" "min-legal-vector-width"="0" "no-builtins" "no-trapping-math"="true" "stack-protector-buffer-size"="8" "target-cpu"="x86-64" "target-features"="+cmov,+cx8,+fxsr,+mmx,+sse,+sse2,+x87" "tune-cpu"="generic" }
attributes #8 = { noinline nounwind optnone willreturn memory(read) uwtable "frame-pointer"="all" "min-legal-vector-width"="0" "no-builtins" "no-trapping-math"="true" "stack-protector-buffer-size"="8" "target-cpu"="x86-64" "target-features"="+cmov,+cx8,+fxsr,+mmx,+sse,+sse2,+x87" "tune-cpu"="generic" }
attributes #9 = { nocallback nofree nounwind willreturn memory(argmem: readwrite) }
attributes #10 = { nounwind "frame-pointer"="all" "no-builtins" "no-trapping-math"="true" "stack-protector-buffer-size"="8" "target-cpu"="x86-64" "target-features"="+cmov,+cx8,+fxsr,+mmx,+sse,+sse2,+x87" "tune-cpu"="generic" }
attributes #11 = { nounwind }
attributes #12 = { nounwind allocsize(0) }
attributes #13 = { noreturn nounwind }
attributes #14 = { nounwind willreturn memory(read) }
attributes #15 = { nounwind willreturn memory(none) }
attributes #16 = { nobuiltin "no-builtins" }
attributes #17 = { nobuiltin noreturn nounwind "no-builtins" }
attributes #18 = { nobuiltin nounwind willreturn memory(none) "no-builtins" }
attributes #19 = { nobuiltin nounwind "no-builtins" }

!llvm.dbg.cu = !{!115, !137, !71, !97, !139, !209, !109, !215}
!llvm.ident = !{!217, !217, !217, !217, !217, !217, !217, !217}
!llvm.module.flags = !{!218, !219, !220, !221, !222}

!0 = !DIGlobalVariableExpression(var: !1, expr: !DIExpression())
!1 = distinct !DIGlobalVariable(scope: null, file: !2, line: 38, type: !3, isLocal: true, isDefinition: true)
!2 = !DIFile(filename: "names.c", directory: ".", checksumkind: CSK_MD5, checksum: "ccdc432de2db1feabd92b67214aeec3c")
!3 = !DICompositeType(tag: DW_TAG_array_type, baseType: !4, size: 128, elements: !5)
!4 = !DIBasicType(name: "char", size: 8, encoding: DW_ATE_signed_char)
!5 = !{!6}
!6 = !DISubrange(count: 16)
!7 = !DIGlobalVariableExpression(var: !8, expr: !DIExpression())
!8 = distinct !DIGlobalVariable(scope: null, file: !2, line: 39, type: !9, isLocal: true, isDefinition: true)
!9 = !DICompositeType(tag: DW_TAG_array_type, baseType: !4, size: 136, elements: !10)
!10 = !{!11}
!11 = !DISubrange(count: 17)
!12 = !DIGlobalVariableExpression(var: !13, expr: !DIExpression())
!13 = distinct !DIGlobalVariable(scope: null, file: !2, line: 39, type: !14, isLocal: true, isDefinition: true)
!14 = !DICompositeType(tag: DW_TAG_array_type, baseType: !4, size: 64, elements: !15)
!15 = !{!16}
!16 = !DISubrange(count: 8)
!17 = !DIGlobalVariableExpression(var: !18, expr: !DIExpression())
!18 = distinct !DIGlobalVariable(scope: null, file: !2, line: 39, type: !19, isLocal: true, isDefinition: true)
!19 = !DICompositeType(tag: DW_TAG_array_type, baseType: !20, size: 120, elements: !21)
!20 = !DIDerivedType(tag: DW_TAG_const_type, baseType: !4)
!21 = !{!22}
!22 = !DISubrange(count: 15)
!23 = !DIGlobalVariableExpression(var: !24, expr: !DIExpression())
!24 = distinct !DIGlobalVariable(scope: null, file: !2, line: 40, type: !25, isLocal: true, isDefinition: true)
!25 = !DICompositeType(tag: DW_TAG_array_type, baseType: !4, size: 16, elements: !26)
!26 = !{!27}
!27 = !DISubrange(count: 2)
!28 = !DIGlobalVariableExpression(var: !29, expr: !DIExpression())
!29 = distinct !DIGlobalVariable(scope: null, file: !2, line: 46, type: !30, isLocal: true, isDefinition: true)
!30 = !DICompositeType(tag: DW_TAG_array_type, baseType: !4, size: 32, elements: !31)
!31 = !{!32}
!32 = !DISubrange(count: 4)
!33 = !DIGlobalVariableExpression(var: !34, expr: !DIExpression())
!34 = distinct !DIGlobalVariable(scope: null, file: !2, line: 46, type: !35, isLocal: true, isDefinition: true)
!35 = !DICompositeType(tag: DW_TAG_array_type, baseType: !4, size: 56, elements: !36)
!36 = !{!37}
!37 = !DISubrange(count: 7)
!38 = !DIGlobalVariableExpression(var: !39, expr: !DIExpression())
!39 = distinct !DIGlobalVariable(scope: null, file: !2, line: 47, type: !30, isLocal: true, isDefinition: true)
!40 = !DIGlobalVariableExpression(var: !41, expr: !DIExpression())
!41 = distinct !DIGlobalVariable(scope: null, file: !2, line: 22, type: !42, isLocal: true, isDefinition: true)
!42 = !DICompositeType(tag: DW_TAG_array_type, baseType: !4, size: 88, elements: !43)
!43 = !{!44}
!44 = !DISubrange(count: 11)
!45 = !DIGlobalVariableExpression(var: !46, expr: !DIExpression())
!46 = distinct !DIGlobalVariable(scope: null, file: !2, line: 22, type: !47, isLocal: true, isDefinition: true)
!47 = !DICompositeType(tag: DW_TAG_array_type, baseType: !4, size: 520, elements: !48)
!48 = !{!49}
!49 = !DISubrange(count: 65)
!50 = !DIGlobalVariableExpression(var: !51, expr: !DIExpression())
!51 = distinct !DIGlobalVariable(scope: null, file: !2, line: 22, type: !52, isLocal: true, isDefinition: true)
!52 = !DICompositeType(tag: DW_TAG_array_type, baseType: !20, size: 536, elements: !53)
!53 = !{!54}
!54 = !DISubrange(count: 67)
!55 = !DIGlobalVariableExpression(var: !56, expr: !DIExpression())
!56 = distinct !DIGlobalVariable(scope: null, file: !57, line: 9, type: !58, isLocal: true, isDefinition: true)
!57 = !DIFile(filename: "library/assert.c", directory: ".", checksumkind: CSK_MD5, checksum: "60c7f42f0fd09b96c57d515b82d74455")
!58 = !DICompositeType(tag: DW_TAG_array_type, baseType: !4, size: 280, elements: !59)
!59 = !{!60}
!60 = !DISubrange(count: 35)
!61 = !DIGlobalVariableExpression(var: !62, expr: !DIExpression())
!62 = distinct !DIGlobalVariable(name: "start", scope: !63, file: !64, line: 61, type: !68, isLocal: true, isDefinition: true)
!63 = distinct !DISubprogram(name: "__ctype_b_loc", scope: !64, file: !64, line: 60, type: !65, scopeLine: 60, flags: DIFlagPrototyped, spFlags: DISPFlagDefinition, unit: !71)
!64 = !DIFile(filename: "library/ctype.c", directory: ".", checksumkind: CSK_MD5, checksum: "d260750caba5af989133aa45037d3cfc")
!65 = !DISubroutineType(types: !66)
!66 = !{!67}
!67 = !DIDerivedType(tag: DW_TAG_pointer_type, baseType: !68, size: 64)
!68 = !DIDerivedType(tag: DW_TAG_pointer_type, baseType: !69, size: 64)
!69 = !DIDerivedType(tag: DW_TAG_const_type, baseType: !70)
!70 = !DIBasicType(name: "unsigned short", size: 16, encoding: DW_ATE_unsigned)
!71 = distinct !DICompileUnit(language: DW_LANG_C11, file: !64, producer: "Debian clang version 19.1.7 (3~deb12u1)", isOptimized: false, runtimeVersion: 0, emissionKind: FullDebug, enums: !72, retainedTypes: !82, globals: !84, splitDebugInlining: false, nameTableKind: None)
!72 = !{!73}
!73 = !DICompositeType(tag: DW_TAG_enumeration_type, file: !64, line: 33, baseType: !74, size: 32, elements: !75)
!74 = !DIBasicType(name: "int", size: 32, encoding: DW_ATE_signed)
!75 = !{!76, !77, !78, !79, !80, !81}
!76 = !DIEnumerator(name: "FIRST", value: -128)
!77 = !DIEnumerator(name: "PRINTED", value: 49152)
!78 = !DIEnumerator(name: "PUNCTUATION", value: 49156)
!79 = !DIEnumerator(name: "DIGIT", value: 55304)
!80 = !DIEnumerator(name: "CAPITAL", value: 50440)
!81 = !DIEnumerator(name: "SMALL", value: 50696)
!82 = !{!83}
!83 = !DIBasicType(name: "unsigned int", size: 32, encoding: DW_ATE_unsigned)
!84 = !{!61, !85}
!85 = !DIGlobalVariableExpression(var: !86, expr: !DIExpression())
!86 = distinct !DIGlobalVariable(name: "classes", scope: !71, file: !64, line: 42, type: !87, isLocal: true, isDefinition: true)
!87 = !DICompositeType(tag: DW_TAG_array_type, baseType: !69, size: 6144, elements: !88)
!88 = !{!89}
!89 = !DISubrange(count: 384)
!90 = !DIGlobalVariableExpression(var: !91, expr: !DIExpression())
!91 = distinct !DIGlobalVariable(name: "error", scope: !92, file: !93, line: 7, type: !74, isLocal: true, isDefinition: true)
!92 = distinct !DISubprogram(name: "__errno_location", scope: !93, file: !93, line: 6, type: !94, scopeLine: 6, flags: DIFlagPrototyped, spFlags: DISPFlagDefinition, unit: !97)
!93 = !DIFile(filename: "library/errno.c", directory: ".", checksumkind: CSK_MD5, checksum: "49152c32a9c6be9716d15503d3f4461c")
!94 = !DISubroutineType(types: !95)
!95 = !{!96}
!96 = !DIDerivedType(tag: DW_TAG_pointer_type, baseType: !74, size: 64)
!97 = distinct !DICompileUnit(language: DW_LANG_C11, file: !93, producer: "Debian clang version 19.1.7 (3~deb12u1)", isOptimized: false, runtimeVersion: 0, emissionKind: FullDebug, globals: !98, splitDebugInlining: false, nameTableKind: None)
!98 = !{!90}
!99 = !DIGlobalVariableExpression(var: !100, expr: !DIExpression())
!100 = distinct !DIGlobalVariable(name: "rest", scope: !101, file: !102, line: 242, type: !105, isLocal: true, isDefinition: true)
!101 = distinct !DISubprogram(name: "strtok", scope: !102, file: !102, line: 241, type: !103, scopeLine: 241, flags: DIFlagPrototyped, spFlags: DISPFlagDefinition, unit: !109, retainedNodes: !114)
!102 = !DIFile(filename: "library/string.c", directory: ".", checksumkind: CSK_MD5, checksum: "dd0d81abb37872cc00b794854ac44a5b")
!103 = !DISubroutineType(types: !104)
!104 = !{!105, !106, !107}
!105 = !DIDerivedType(tag: DW_TAG_pointer_type, baseType: !4, size: 64)
!106 = !DIDerivedType(tag: DW_TAG_restrict_type, baseType: !105)
!107 = !DIDerivedType(tag: DW_TAG_restrict_type, baseType: !108)
!108 = !DIDerivedType(tag: DW_TAG_pointer_type, baseType: !20, size: 64)
!109 = distinct !DICompileUnit(language: DW_LANG_C11, file: !102, producer: "Debian clang version 19.1.7 (3~deb12u1)", isOptimized: false, runtimeVersion: 0, emissionKind: FullDebug, retainedTypes: !110, globals: !113, splitDebugInlining: false, nameTableKind: None)
!110 = !{!105, !4, !111, !112}
!111 = !DIDerivedType(tag: DW_TAG_pointer_type, baseType: null, size: 64)
!112 = !DIBasicType(name: "unsigned char", size: 8, encoding: DW_ATE_unsigned_char)
!113 = !{!99}
!114 = !{}
!115 = distinct !DICompileUnit(language: DW_LANG_C11, file: !2, producer: "Debian clang version 19.1.7 (3~deb12u1)", isOptimized: true, runtimeVersion: 0, emissionKind: FullDebug, enums: !116, retainedTypes: !135, globals: !136, splitDebugInlining: false, nameTableKind: None)
!116 = !{!117, !132}
!117 = !DICompositeType(tag: DW_TAG_enumeration_type, file: !118, line: 46, baseType: !83, size: 32, elements: !119)
!118 = !DIFile(filename: "/usr/include/ctype.h", directory: "", checksumkind: CSK_MD5, checksum: "3ab3dd7fdf2578005732722ee2393e59")
!119 = !{!120, !121, !122, !123, !124, !125, !126, !127, !128, !129, !130, !131}
!120 = !DIEnumerator(name: "_ISupper", value: 256)
!121 = !DIEnumerator(name: "_ISlower", value: 512)
!122 = !DIEnumerator(name: "_ISalpha", value: 1024)
!123 = !DIEnumerator(name: "_ISdigit", value: 2048)
!124 = !DIEnumerator(name: "_ISxdigit", value: 4096)
!125 = !DIEnumerator(name: "_ISspace", value: 8192)
!126 = !DIEnumerator(name: "_ISprint", value: 16384)
!127 = !DIEnumerator(name: "_ISgraph", value: 32768)
!128 = !DIEnumerator(name: "_ISblank", value: 1)
!129 = !DIEnumerator(name: "_IScntrl", value: 2)
!130 = !DIEnumerator(name: "_ISpunct", value: 4)
!131 = !DIEnumerator(name: "_ISalnum", value: 8)
!132 = !DICompositeType(tag: DW_TAG_enumeration_type, file: !2, line: 8, baseType: !83, size: 32, elements: !133)
!133 = !{!134}
!134 = !DIEnumerator(name: "SMALL", value: 32)
!135 = !{!74, !70}
!136 = !{!0, !7, !12, !17, !23, !28, !33, !38, !40, !45, !50}
!137 = distinct !DICompileUnit(language: DW_LANG_C11, file: !57, producer: "Debian clang version 19.1.7 (3~deb12u1)", isOptimized: false, runtimeVersion: 0, emissionKind: FullDebug, globals: !138, splitDebugInlining: false, nameTableKind: None)
!138 = !{!55}
!139 = distinct !DICompileUnit(language: DW_LANG_C11, file: !140, producer: "Debian clang version 19.1.7 (3~deb12u1)", isOptimized: false, runtimeVersion: 0, emissionKind: FullDebug, retainedTypes: !141, globals: !142, splitDebugInlining: false, nameTableKind: None)
!140 = !DIFile(filename: "library/stdio.c", directory: ".", checksumkind: CSK_MD5, checksum: "59f623ab4acf93d3bf565fd914438146")
!141 = !{!112}
!142 = !{!143, !203, !205, !207}
!143 = !DIGlobalVariableExpression(var: !144, expr: !DIExpression())
!144 = distinct !DIGlobalVariable(name: "stdout", scope: !139, file: !140, line: 9, type: !145, isLocal: false, isDefinition: true)
!145 = !DIDerivedType(tag: DW_TAG_pointer_type, baseType: !146, size: 64)
!146 = !DIDerivedType(tag: DW_TAG_typedef, name: "FILE", file: !147, line: 7, baseType: !148)
!147 = !DIFile(filename: "/usr/include/x86_64-linux-gnu/bits/types/FILE.h", directory: "", checksumkind: CSK_MD5, checksum: "571f9fb6223c42439075fdde11a0de5d")
!148 = distinct !DICompositeType(tag: DW_TAG_structure_type, name: "_IO_FILE", file: !149, line: 49, size: 1728, elements: !150)
!149 = !DIFile(filename: "/usr/include/x86_64-linux-gnu/bits/types/struct_FILE.h", directory: "", checksumkind: CSK_MD5, checksum: "1bad07471b7974df4ecc1d1c2ca207e6")
!150 = !{!151, !152, !153, !154, !155, !156, !157, !158, !159, !160, !161, !162, !163, !166, !168, !169, !170, !174, !175, !177, !181, !184, !186, !189, !192, !193, !194, !198, !199}
!151 = !DIDerivedType(tag: DW_TAG_member, name: "_flags", scope: !148, file: !149, line: 51, baseType: !74, size: 32)
!152 = !DIDerivedType(tag: DW_TAG_member, name: "_IO_read_ptr", scope: !148, file: !149, line: 54, baseType: !105, size: 64, offset: 64)
!153 = !DIDerivedType(tag: DW_TAG_member, name: "_IO_read_end", scope: !148, file: !149, line: 55, baseType: !105, size: 64, offset: 128)
!154 = !DIDerivedType(tag: DW_TAG_member, name: "_IO_read_base", scope: !148, file: !149, line: 56, baseType: !105, size: 64, offset: 192)
!155 = !DIDerivedType(tag: DW_TAG_member, name: "_IO_write_base", scope: !148, file: !149, line: 57, baseType: !105, size: 64, offset: 256)
!156 = !DIDerivedType(tag: DW_TAG_member, name: "_IO_write_ptr", scope: !148, file: !149, line: 58, baseType: !105, size: 64, offset: 320)
!157 = !DIDerivedType(tag: DW_TAG_member, name: "_IO_write_end", scope: !148, file: !149, line: 59, baseType: !105, size: 64, offset: 384)
!158 = !DIDerivedType(tag: DW_TAG_member, name: "_IO_buf_base", scope: !148, file: !149, line: 60, baseType: !105, size: 64, offset: 448)
!159 = !DIDerivedType(tag: DW_TAG_member, name: "_IO_buf_end", scope: !148, file: !149, line: 61, baseType: !105, size: 64, offset: 512)
!160 = !DIDerivedType(tag: DW_TAG_member, name: "_IO_save_base", scope: !148, file: !149, line: 64, baseType: !105, size: 64, offset: 576)
!161 = !DIDerivedType(tag: DW_TAG_member, name: "_IO_backup_base", scope: !148, file: !149, line: 65, baseType: !105, size: 64, offset: 640)
!162 = !DIDerivedType(tag: DW_TAG_member, name: "_IO_save_end", scope: !148, file: !149, line: 66, baseType: !105, size: 64, offset: 704)
!163 = !DIDerivedType(tag: DW_TAG_member, name: "_markers", scope: !148, file: !149, line: 68, baseType: !164, size: 64, offset: 768)
!164 = !DIDerivedType(tag: DW_TAG_pointer_type, baseType: !165, size: 64)
!165 = !DICompositeType(tag: DW_TAG_structure_type, name: "_IO_marker", file: !149, line: 36, flags: DIFlagFwdDecl)
!166 = !DIDerivedType(tag: DW_TAG_member, name: "_chain", scope: !148, file: !149, line: 70, baseType: !167, size: 64, offset: 832)
!167 = !DIDerivedType(tag: DW_TAG_pointer_type, baseType: !148, size: 64)
!168 = !DIDerivedType(tag: DW_TAG_member, name: "_fileno", scope: !148, file: !149, line: 72, baseType: !74, size: 32, offset: 896)
!169 = !DIDerivedType(tag: DW_TAG_member, name: "_flags2", scope: !148, file: !149, line: 73, baseType: !74, size: 32, offset: 928)
!170 = !DIDerivedType(tag: DW_TAG_member, name: "_old_offset", scope: !148, file: !149, line: 74, baseType: !171, size: 64, offset: 960)
!171 = !DIDerivedType(tag: DW_TAG_typedef, name: "__off_t", file: !172, line: 152, baseType: !173)
!172 = !DIFile(filename: "/usr/include/x86_64-linux-gnu/bits/types.h", directory: "", checksumkind: CSK_MD5, checksum: "d108b5f93a74c50510d7d9bc0ab36df9")
!173 = !DIBasicType(name: "long", size: 64, encoding: DW_ATE_signed)
!174 = !DIDerivedType(tag: DW_TAG_member, name: "_cur_column", scope: !148, file: !149, line: 77, baseType: !70, size: 16, offset: 1024)
!175 = !DIDerivedType(tag: DW_TAG_member, name: "_vtable_offset", scope: !148, file: !149, line: 78, baseType: !176, size: 8, offset: 1040)
!176 = !DIBasicType(name: "signed char", size: 8, encoding: DW_ATE_signed_char)
!177 = !DIDerivedType(tag: DW_TAG_member, name: "_shortbuf", scope: !148, file: !149, line: 79, baseType: !178, size: 8, offset: 1048)
!178 = !DICompositeType(tag: DW_TAG_array_type, baseType: !4, size: 8, elements: !179)
!179 = !{!180}
!180 = !DISubrange(count: 1)
!181 = !DIDerivedType(tag: DW_TAG_member, name: "_lock", scope: !148, file: !149, line: 81, baseType: !182, size: 64, offset: 1088)
!182 = !DIDerivedType(tag: DW_TAG_pointer_type, baseType: !183, size: 64)
!183 = !DIDerivedType(tag: DW_TAG_typedef, name: "_IO_lock_t", file: !149, line: 43, baseType: null)
!184 = !DIDerivedType(tag: DW_TAG_member, name: "_offset", scope: !148, file: !149, line: 89, baseType: !185, size: 64, offset: 1152)
!185 = !DIDerivedType(tag: DW_TAG_typedef, name: "__off64_t", file: !172, line: 153, baseType: !173)
!186 = !DIDerivedType(tag: DW_TAG_member, name: "_codecvt", scope: !148, file: !149, line: 91, baseType: !187, size: 64, offset: 1216)
!187 = !DIDerivedType(tag: DW_TAG_pointer_type, baseType: !188, size: 64)
!188 = !DICompositeType(tag: DW_TAG_structure_type, name: "_IO_codecvt", file: !149, line: 37, flags: DIFlagFwdDecl)
!189 = !DIDerivedType(tag: DW_TAG_member, name: "_wide_data", scope: !148, file: !149, line: 92, baseType: !190, size: 64, offset: 1280)
!190 = !DIDerivedType(tag: DW_TAG_pointer_type, baseType: !191, size: 64)
!191 = !DICompositeType(tag: DW_TAG_structure_type, name: "_IO_wide_data", file: !149, line: 38, flags: DIFlagFwdDecl)
!192 = !DIDerivedType(tag: DW_TAG_member, name: "_freeres_list", scope: !148, file: !149, line: 93, baseType: !167, size: 64, offset: 1344)
!193 = !DIDerivedType(tag: DW_TAG_member, name: "_freeres_buf", scope: !148, file: !149, line: 94, baseType: !111, size: 64, offset: 1408)
!194 = !DIDerivedType(tag: DW_TAG_member, name: "__pad5", scope: !148, file: !149, line: 95, baseType: !195, size: 64, offset: 1472)
!195 = !DIDerivedType(tag: DW_TAG_typedef, name: "size_t", file: !196, line: 18, baseType: !197)
!196 = !DIFile(filename: "/usr/lib/llvm-19/lib/clang/19/include/__stddef_size_t.h", directory: "", checksumkind: CSK_MD5, checksum: "2c44e821a2b1951cde2eb0fb2e656867")
!197 = !DIBasicType(name: "unsigned long", size: 64, encoding: DW_ATE_unsigned)
!198 = !DIDerivedType(tag: DW_TAG_member, name: "_mode", scope: !148, file: !149, line: 96, baseType: !74, size: 32, offset: 1536)
!199 = !DIDerivedType(tag: DW_TAG_member, name: "_unused2", scope: !148, file: !149, line: 98, baseType: !200, size: 160, offset: 1568)
!200 = !DICompositeType(tag: DW_TAG_array_type, baseType: !4, size: 160, elements: !201)
!201 = !{!202}
!202 = !DISubrange(count: 20)
!203 = !DIGlobalVariableExpression(var: !204, expr: !DIExpression())
!204 = distinct !DIGlobalVariable(name: "stderr", scope: !139, file: !140, line: 10, type: !145, isLocal: false, isDefinition: true)
!205 = !DIGlobalVariableExpression(var: !206, expr: !DIExpression())
!206 = distinct !DIGlobalVariable(name: "output", scope: !139, file: !140, line: 7, type: !146, isLocal: true, isDefinition: true)
!207 = !DIGlobalVariableExpression(var: !208, expr: !DIExpression())
!208 = distinct !DIGlobalVariable(name: "errors", scope: !139, file: !140, line: 7, type: !146, isLocal: true, isDefinition: true)
!209 = distinct !DICompileUnit(language: DW_LANG_C11, file: !210, producer: "Debian clang version 19.1.7 (3~deb12u1)", isOptimized: false, runtimeVersion: 0, emissionKind: FullDebug, retainedTypes: !211, globals: !212, splitDebugInlining: false, nameTableKind: None)
!210 = !DIFile(filename: "library/stdlib.c", directory: ".", checksumkind: CSK_MD5, checksum: "1a29fd85c105609dc128336b155ef97d")
!211 = !{!74, !105, !197}
!212 = !{!213}
!213 = !DIGlobalVariableExpression(var: !214, expr: !DIExpression())
!214 = distinct !DIGlobalVariable(name: "random_state", scope: !209, file: !210, line: 106, type: !197, isLocal: true, isDefinition: true)
!215 = distinct !DICompileUnit(language: DW_LANG_C11, file: !216, producer: "Debian clang version 19.1.7 (3~deb12u1)", isOptimized: false, runtimeVersion: 0, emissionKind: FullDebug, splitDebugInlining: false, nameTableKind: None)
!216 = !DIFile(filename: "library/strings.c", directory: ".", checksumkind: CSK_MD5, checksum: "b799ecd1764918092664e6e12ee070c9")
!217 = !{!"Debian clang version 19.1.7 (3~deb12u1)"}
!218 = !{i32 7, !"Dwarf Version", i32 5}
!219 = !{i32 2, !"Debug Info Version", i32 3}
!220 = !{i32 1, !"wchar_size", i32 4}
!221 = !{i32 7, !"uwtable", i32 2}
!222 = !{i32 7, !"frame-pointer", i32 2}
!223 = distinct !DISubprogram(name: "main", scope: !2, file: !2, line: 36, type: !224, scopeLine: 36, flags: DIFlagPrototyped | DIFlagAllCallsDescribed, spFlags: DISPFlagDefinition | DISPFlagOptimized, unit: !115, retainedNodes: !226)
!224 = !DISubroutineType(types: !225)
!225 = !{!74}
!226 = !{!227, !233, !234, !236, !243}
!227 = !DILocalVariable(name: "settings", scope: !223, file: !2, line: 37, type: !228)
!228 = !DIDerivedType(tag: DW_TAG_pointer_type, baseType: !229, size: 64)
!229 = distinct !DICompositeType(tag: DW_TAG_structure_type, name: "settings", file: !2, line: 10, size: 64, elements: !230)
!230 = !{!231, !232}
!231 = !DIDerivedType(tag: DW_TAG_member, name: "separator", scope: !229, file: !2, line: 11, baseType: !25, size: 16)
!232 = !DIDerivedType(tag: DW_TAG_member, name: "flags", scope: !229, file: !2, line: 12, baseType: !83, size: 32, offset: 32)
!233 = !DILocalVariable(name: "line", scope: !223, file: !2, line: 38, type: !105)
!234 = !DILocalVariable(name: "text", scope: !235, file: !2, line: 41, type: !105)
!235 = distinct !DILexicalBlock(scope: !223, file: !2, line: 41, column: 3)
!236 = !DILocalVariable(name: "person", scope: !237, file: !2, line: 42, type: !239)
!237 = distinct !DILexicalBlock(scope: !238, file: !2, line: 41, column: 104)
!238 = distinct !DILexicalBlock(scope: !235, file: !2, line: 41, column: 3)
!239 = distinct !DICompositeType(tag: DW_TAG_structure_type, name: "person", file: !2, line: 15, size: 160, elements: !240)
!240 = !{!241, !242}
!241 = !DIDerivedType(tag: DW_TAG_member, name: "name", scope: !239, file: !2, line: 16, baseType: !3, size: 128)
!242 = !DIDerivedType(tag: DW_TAG_member, name: "age", scope: !239, file: !2, line: 17, baseType: !74, size: 32, offset: 128)
!243 = !DILocalVariable(name: "name", scope: !237, file: !2, line: 43, type: !3)
!244 = !DILocation(line: 37, column: 3, scope: !223)
!245 = !DILocation(line: 37, column: 20, scope: !223)
!246 = !DILocation(line: 37, column: 31, scope: !223)
!247 = !{!248, !248, i64 0}
!248 = !{!"any pointer", !249, i64 0}
!249 = !{!"omnipotent char", !250, i64 0}
!250 = !{!"Simple C/C++ TBAA"}
!251 = !DILocation(line: 38, column: 3, scope: !223)
!252 = !DILocation(line: 38, column: 9, scope: !223)
!253 = !DILocation(line: 38, column: 16, scope: !223)
!254 = !DILocation(line: 39, column: 3, scope: !255)
!255 = distinct !DILexicalBlock(scope: !256, file: !2, line: 39, column: 3)
!256 = distinct !DILexicalBlock(scope: !223, file: !2, line: 39, column: 3)
!257 = !DILocation(line: 39, column: 3, scope: !256)
!258 = !DILocation(line: 40, column: 10, scope: !223)
!259 = !DILocation(line: 40, column: 20, scope: !223)
!260 = !DILocation(line: 40, column: 3, scope: !223)
!261 = !DILocation(line: 41, column: 8, scope: !235)
!262 = !DILocation(line: 41, column: 14, scope: !235)
!263 = !DILocation(line: 41, column: 28, scope: !235)
!264 = !DILocation(line: 41, column: 34, scope: !235)
!265 = !DILocation(line: 41, column: 44, scope: !235)
!266 = !DILocation(line: 41, column: 21, scope: !235)
!267 = !DILocation(line: 41, column: 56, scope: !238)
!268 = !DILocation(line: 41, column: 3, scope: !235)
!269 = !DILocation(line: 41, column: 3, scope: !238)
!270 = !DILocation(line: 42, column: 5, scope: !237)
!271 = !DILocation(line: 42, column: 19, scope: !237)
!272 = !DILocation(line: 43, column: 5, scope: !237)
!273 = !DILocation(line: 43, column: 10, scope: !237)
!274 = !DILocation(line: 44, column: 17, scope: !237)
!275 = !DILocation(line: 44, column: 23, scope: !237)
!276 = !DILocation(line: 44, column: 5, scope: !237)
!277 = !DILocation(line: 45, column: 12, scope: !237)
!278 = !DILocation(line: 45, column: 25, scope: !237)
!279 = !DILocation(line: 45, column: 18, scope: !237)
!280 = !DILocation(line: 45, column: 5, scope: !237)
!281 = !DILocation(line: 46, column: 19, scope: !282)
!282 = distinct !DILexicalBlock(scope: !237, file: !2, line: 46, column: 9)
!283 = !DILocation(line: 46, column: 9, scope: !282)
!284 = !DILocation(line: 46, column: 9, scope: !237)
!285 = !DILocation(line: 47, column: 29, scope: !282)
!286 = !{!287, !288, i64 16}
!287 = !{!"person", !249, i64 0, !288, i64 16}
!288 = !{!"int", !249, i64 0}
!289 = !DILocation(line: 47, column: 7, scope: !282)
!290 = !DILocation(line: 48, column: 3, scope: !238)
!291 = !DILocation(line: 48, column: 3, scope: !237)
!292 = !DILocation(line: 41, column: 82, scope: !238)
!293 = !DILocation(line: 41, column: 92, scope: !238)
!294 = !DILocation(line: 41, column: 69, scope: !238)
!295 = !DILocation(line: 41, column: 67, scope: !238)
!296 = distinct !{!296, !268, !297, !298, !299}
!297 = !DILocation(line: 48, column: 3, scope: !235)
!298 = !{!"llvm.loop.mustprogress"}
!299 = !{!"llvm.loop.unroll.disable"}
!300 = !DILocation(line: 50, column: 1, scope: !223)
!301 = !DILocation(line: 49, column: 3, scope: !223)
!302 = !DISubprogram(name: "malloc", scope: !303, file: !303, line: 553, type: !304, flags: DIFlagPrototyped, spFlags: DISPFlagOptimized)
!303 = !DIFile(filename: "/usr/include/stdlib.h", directory: "", checksumkind: CSK_MD5, checksum: "4b47dc81a92f1fe77a152c0aac236718")
!304 = !DISubroutineType(types: !305)
!305 = !{!111, !195}
!306 = distinct !DISubprogram(name: "read_person", scope: !2, file: !2, line: 20, type: !307, scopeLine: 20, flags: DIFlagPrototyped | DIFlagAllCallsDescribed, spFlags: DISPFlagLocalToUnit | DISPFlagDefinition | DISPFlagOptimized, unit: !115, retainedNodes: !312)
!307 = !DISubroutineType(types: !308)
!308 = !{null, !105, !309, !311}
!309 = !DIDerivedType(tag: DW_TAG_pointer_type, baseType: !310, size: 64)
!310 = !DIDerivedType(tag: DW_TAG_const_type, baseType: !229)
!311 = !DIDerivedType(tag: DW_TAG_pointer_type, baseType: !239, size: 64)
!312 = !{!313, !314, !315, !316}
!313 = !DILocalVariable(name: "text", arg: 1, scope: !306, file: !2, line: 20, type: !105)
!314 = !DILocalVariable(name: "settings", arg: 2, scope: !306, file: !2, line: 20, type: !309)
!315 = !DILocalVariable(name: "person", arg: 3, scope: !306, file: !2, line: 20, type: !311)
!316 = !DILocalVariable(name: "colon", scope: !306, file: !2, line: 21, type: !105)
!317 = !DILocation(line: 20, column: 31, scope: !306)
!318 = !DILocation(line: 20, column: 60, scope: !306)
!319 = !DILocation(line: 20, column: 85, scope: !306)
!320 = !DILocation(line: 21, column: 3, scope: !306)
!321 = !DILocation(line: 21, column: 9, scope: !306)
!322 = !DILocation(line: 21, column: 24, scope: !306)
!323 = !DILocation(line: 21, column: 17, scope: !306)
!324 = !DILocation(line: 22, column: 3, scope: !325)
!325 = distinct !DILexicalBlock(scope: !326, file: !2, line: 22, column: 3)
!326 = distinct !DILexicalBlock(scope: !306, file: !2, line: 22, column: 3)
!327 = !{!249, !249, i64 0}
!328 = !{!329, !329, i64 0}
!329 = !{!"short", !249, i64 0}
!330 = !DILocation(line: 22, column: 3, scope: !326)
!331 = !DILocation(line: 23, column: 4, scope: !306)
!332 = !DILocation(line: 23, column: 10, scope: !306)
!333 = !DILocation(line: 24, column: 10, scope: !306)
!334 = !DILocation(line: 24, column: 18, scope: !306)
!335 = !DILocation(line: 24, column: 24, scope: !306)
!336 = !DILocation(line: 24, column: 3, scope: !306)
!337 = !DILocation(line: 25, column: 29, scope: !306)
!338 = !DILocation(line: 25, column: 21, scope: !306)
!339 = !DILocation(line: 25, column: 41, scope: !306)
!340 = !DILocation(line: 25, column: 51, scope: !306)
!341 = !{!342, !288, i64 4}
!342 = !{!"settings", !249, i64 0, !288, i64 4}
!343 = !DILocation(line: 25, column: 57, scope: !306)
!344 = !DILocation(line: 25, column: 38, scope: !306)
!345 = !DILocation(line: 25, column: 3, scope: !306)
!346 = !DILocation(line: 25, column: 11, scope: !306)
!347 = !DILocation(line: 25, column: 19, scope: !306)
!348 = !DILocation(line: 26, column: 22, scope: !306)
!349 = !DILocation(line: 26, column: 28, scope: !306)
!350 = !DILocation(line: 26, column: 17, scope: !306)
!351 = !DILocation(line: 26, column: 3, scope: !306)
!352 = !DILocation(line: 26, column: 11, scope: !306)
!353 = !DILocation(line: 26, column: 15, scope: !306)
!354 = !DILocation(line: 27, column: 1, scope: !306)
!355 = distinct !DISubprogram(name: "is_called", scope: !2, file: !2, line: 29, type: !356, scopeLine: 29, flags: DIFlagPrototyped | DIFlagAllCallsDescribed, spFlags: DISPFlagLocalToUnit | DISPFlagDefinition | DISPFlagOptimized, unit: !115, retainedNodes: !358)
!356 = !DISubroutineType(types: !357)
!357 = !{!74, !108, !108, !108}
!358 = !{!359, !360, !361, !362}
!359 = !DILocalVariable(name: "name", arg: 1, scope: !355, file: !2, line: 29, type: !108)
!360 = !DILocalVariable(name: "title", arg: 2, scope: !355, file: !2, line: 29, type: !108)
!361 = !DILocalVariable(name: "wanted", arg: 3, scope: !355, file: !2, line: 29, type: !108)
!362 = !DILocalVariable(name: "whole", scope: !355, file: !2, line: 30, type: !363)
!363 = !DICompositeType(tag: DW_TAG_array_type, baseType: !4, size: 256, elements: !364)
!364 = !{!365}
!365 = !DISubrange(count: 32)
!366 = !DILocation(line: 29, column: 34, scope: !355)
!367 = !DILocation(line: 29, column: 52, scope: !355)
!368 = !DILocation(line: 29, column: 71, scope: !355)
!369 = !DILocation(line: 30, column: 3, scope: !355)
!370 = !DILocation(line: 30, column: 8, scope: !355)
!371 = !DILocation(line: 31, column: 10, scope: !355)
!372 = !DILocation(line: 31, column: 17, scope: !355)
!373 = !DILocation(line: 31, column: 3, scope: !355)
!374 = !DILocation(line: 32, column: 10, scope: !355)
!375 = !DILocation(line: 32, column: 17, scope: !355)
!376 = !DILocation(line: 32, column: 3, scope: !355)
!377 = !DILocation(line: 33, column: 17, scope: !355)
!378 = !DILocation(line: 33, column: 24, scope: !355)
!379 = !DILocation(line: 33, column: 10, scope: !355)
!380 = !DILocation(line: 33, column: 32, scope: !355)
!381 = !DILocation(line: 34, column: 1, scope: !355)
!382 = !DILocation(line: 33, column: 3, scope: !355)
!383 = !DISubprogram(name: "printf", scope: !384, file: !384, line: 356, type: !385, flags: DIFlagPrototyped, spFlags: DISPFlagOptimized)
!384 = !DIFile(filename: "/usr/include/stdio.h", directory: "", checksumkind: CSK_MD5, checksum: "b5a90985555f47bfb88eff5a8f0f5b72")
!385 = !DISubroutineType(types: !386)
!386 = !{!74, !107, null}
!387 = distinct !DISubprogram(name: "__assert_fail", scope: !57, file: !57, line: 8, type: !388, scopeLine: 8, flags: DIFlagPrototyped | DIFlagNoReturn, spFlags: DISPFlagDefinition, unit: !137, retainedNodes: !114)
!388 = !DISubroutineType(types: !389)
!389 = !{null, !108, !108, !83, !108}
!390 = !DILocalVariable(name: "condition", arg: 1, scope: !387, file: !57, line: 8, type: !108)
!391 = !DILocation(line: 8, column: 37, scope: !387)
!392 = !DILocalVariable(name: "file", arg: 2, scope: !387, file: !57, line: 8, type: !108)
!393 = !DILocation(line: 8, column: 60, scope: !387)
!394 = !DILocalVariable(name: "line", arg: 3, scope: !387, file: !57, line: 8, type: !83)
!395 = !DILocation(line: 8, column: 75, scope: !387)
!396 = !DILocalVariable(name: "function", arg: 4, scope: !387, file: !57, line: 8, type: !108)
!397 = !DILocation(line: 8, column: 93, scope: !387)
!398 = !DILocation(line: 9, column: 49, scope: !387)
!399 = !DILocation(line: 9, column: 55, scope: !387)
!400 = !DILocation(line: 9, column: 61, scope: !387)
!401 = !DILocation(line: 9, column: 71, scope: !387)
!402 = !DILocation(line: 9, column: 3, scope: !387)
!403 = !DILocation(line: 10, column: 3, scope: !387)
!404 = distinct !DISubprogram(name: "toupper", scope: !64, file: !64, line: 31, type: !405, scopeLine: 31, flags: DIFlagPrototyped, spFlags: DISPFlagDefinition, unit: !71, retainedNodes: !114)
!405 = !DISubroutineType(types: !406)
!406 = !{!74, !74}
!407 = !DILocalVariable(name: "c", arg: 1, scope: !404, file: !64, line: 31, type: !74)
!408 = !DILocation(line: 31, column: 22, scope: !404)
!409 = !DILocation(line: 31, column: 34, scope: !404)
!410 = !DILocation(line: 31, column: 48, scope: !404)
!411 = !DILocation(line: 31, column: 40, scope: !404)
!412 = !DILocation(line: 31, column: 61, scope: !404)
!413 = !DILocation(line: 31, column: 38, scope: !404)
!414 = !DILocation(line: 31, column: 36, scope: !404)
!415 = !DILocation(line: 31, column: 27, scope: !404)
!416 = distinct !DISubprogram(name: "between", scope: !64, file: !64, line: 10, type: !417, scopeLine: 10, flags: DIFlagPrototyped, spFlags: DISPFlagLocalToUnit | DISPFlagDefinition, unit: !71, retainedNodes: !114)
!417 = !DISubroutineType(types: !418)
!418 = !{!74, !74, !83, !83}
!419 = !DILocalVariable(name: "c", arg: 1, scope: !416, file: !64, line: 10, type: !74)
!420 = !DILocation(line: 10, column: 24, scope: !416)
!421 = !DILocalVariable(name: "first", arg: 2, scope: !416, file: !64, line: 10, type: !83)
!422 = !DILocation(line: 10, column: 36, scope: !416)
!423 = !DILocalVariable(name: "last", arg: 3, scope: !416, file: !64, line: 10, type: !83)
!424 = !DILocation(line: 10, column: 52, scope: !416)
!425 = !DILocation(line: 10, column: 77, scope: !416)
!426 = !DILocation(line: 10, column: 81, scope: !416)
!427 = !DILocation(line: 10, column: 79, scope: !416)
!428 = !DILocation(line: 10, column: 90, scope: !416)
!429 = !DILocation(line: 10, column: 97, scope: !416)
!430 = !DILocation(line: 10, column: 95, scope: !416)
!431 = !DILocation(line: 10, column: 87, scope: !416)
!432 = !DILocation(line: 10, column: 60, scope: !416)
!433 = !DILocation(line: 62, column: 9, scope: !63)
!434 = !DILocation(line: 63, column: 3, scope: !63)
!435 = distinct !DISubprogram(name: "atoi", scope: !210, file: !210, line: 100, type: !436, scopeLine: 100, flags: DIFlagPrototyped, spFlags: DISPFlagDefinition, unit: !209, retainedNodes: !114)
!436 = !DISubroutineType(types: !437)
!437 = !{!74, !108}
!438 = !DILocalVariable(name: "text", arg: 1, scope: !435, file: !210, line: 100, type: !108)
!439 = !DILocation(line: 100, column: 27, scope: !435)
!440 = !DILocation(line: 100, column: 57, scope: !435)
!441 = !DILocation(line: 100, column: 47, scope: !435)
!442 = !DILocation(line: 100, column: 42, scope: !435)
!443 = !DILocation(line: 100, column: 35, scope: !435)
!444 = distinct !DISubprogram(name: "to_signed", scope: !210, file: !210, line: 70, type: !445, scopeLine: 70, flags: DIFlagPrototyped, spFlags: DISPFlagLocalToUnit | DISPFlagDefinition, unit: !209, retainedNodes: !114)
!445 = !DISubroutineType(types: !446)
!446 = !{!173, !108, !447, !74}
!447 = !DIDerivedType(tag: DW_TAG_pointer_type, baseType: !105, size: 64)
!448 = !DILocalVariable(name: "text", arg: 1, scope: !444, file: !210, line: 70, type: !108)
!449 = !DILocation(line: 70, column: 35, scope: !444)
!450 = !DILocalVariable(name: "end", arg: 2, scope: !444, file: !210, line: 70, type: !447)
!451 = !DILocation(line: 70, column: 48, scope: !444)
!452 = !DILocalVariable(name: "base", arg: 3, scope: !444, file: !210, line: 70, type: !74)
!453 = !DILocation(line: 70, column: 57, scope: !444)
!454 = !DILocalVariable(name: "number", scope: !444, file: !210, line: 71, type: !455)
!455 = distinct !DICompositeType(tag: DW_TAG_structure_type, name: "number", file: !210, line: 15, size: 192, elements: !456)
!456 = !{!457, !458, !459, !460}
!457 = !DIDerivedType(tag: DW_TAG_member, name: "magnitude", scope: !455, file: !210, line: 16, baseType: !197, size: 64)
!458 = !DIDerivedType(tag: DW_TAG_member, name: "is_negative", scope: !455, file: !210, line: 17, baseType: !74, size: 32, offset: 64)
!459 = !DIDerivedType(tag: DW_TAG_member, name: "is_too_large", scope: !455, file: !210, line: 18, baseType: !74, size: 32, offset: 96)
!460 = !DIDerivedType(tag: DW_TAG_member, name: "end", scope: !455, file: !210, line: 19, baseType: !108, size: 64, offset: 128)
!461 = !DILocation(line: 71, column: 17, scope: !444)
!462 = !DILocation(line: 72, column: 15, scope: !444)
!463 = !DILocation(line: 72, column: 21, scope: !444)
!464 = !DILocation(line: 72, column: 3, scope: !444)
!465 = !DILocation(line: 73, column: 7, scope: !466)
!466 = distinct !DILexicalBlock(scope: !444, file: !210, line: 73, column: 7)
!467 = !DILocation(line: 73, column: 7, scope: !444)
!468 = !DILocation(line: 74, column: 27, scope: !466)
!469 = !DILocation(line: 74, column: 6, scope: !466)
!470 = !DILocation(line: 74, column: 10, scope: !466)
!471 = !DILocation(line: 74, column: 5, scope: !466)
!472 = !DILocalVariable(name: "most", scope: !444, file: !210, line: 75, type: !197)
!473 = !DILocation(line: 75, column: 17, scope: !444)
!474 = !DILocation(line: 75, column: 31, scope: !444)
!475 = !DILocation(line: 75, column: 24, scope: !444)
!476 = !DILocation(line: 76, column: 14, scope: !477)
!477 = distinct !DILexicalBlock(scope: !444, file: !210, line: 76, column: 7)
!478 = !DILocation(line: 76, column: 26, scope: !477)
!479 = !DILocation(line: 76, column: 24, scope: !477)
!480 = !DILocation(line: 76, column: 7, scope: !444)
!481 = !DILocation(line: 77, column: 5, scope: !482)
!482 = distinct !DILexicalBlock(scope: !477, file: !210, line: 76, column: 32)
!483 = !DILocation(line: 77, column: 11, scope: !482)
!484 = !DILocation(line: 78, column: 24, scope: !482)
!485 = !DILocation(line: 78, column: 12, scope: !482)
!486 = !DILocation(line: 78, column: 22, scope: !482)
!487 = !DILocation(line: 79, column: 3, scope: !482)
!488 = !DILocation(line: 80, column: 17, scope: !444)
!489 = !DILocation(line: 80, column: 10, scope: !444)
!490 = !DILocation(line: 80, column: 39, scope: !444)
!491 = !DILocation(line: 80, column: 31, scope: !444)
!492 = !DILocation(line: 80, column: 58, scope: !444)
!493 = !DILocation(line: 80, column: 3, scope: !444)
!494 = distinct !DISubprogram(name: "read_number", scope: !210, file: !210, line: 49, type: !495, scopeLine: 49, flags: DIFlagPrototyped, spFlags: DISPFlagLocalToUnit | DISPFlagDefinition, unit: !209, retainedNodes: !114)
!495 = !DISubroutineType(types: !496)
!496 = !{!497, !108, !74, !497}
!497 = !DIDerivedType(tag: DW_TAG_pointer_type, baseType: !455, size: 64)
!498 = !DILocalVariable(name: "text", arg: 1, scope: !494, file: !210, line: 49, type: !108)
!499 = !DILocation(line: 49, column: 47, scope: !494)
!500 = !DILocalVariable(name: "base", arg: 2, scope: !494, file: !210, line: 49, type: !74)
!501 = !DILocation(line: 49, column: 57, scope: !494)
!502 = !DILocalVariable(name: "number", arg: 3, scope: !494, file: !210, line: 49, type: !497)
!503 = !DILocation(line: 49, column: 78, scope: !494)
!504 = !DILocation(line: 50, column: 4, scope: !494)
!505 = !DILocation(line: 50, column: 28, scope: !494)
!506 = !DILocation(line: 50, column: 36, scope: !494)
!507 = !DILocation(line: 50, column: 13, scope: !494)
!508 = !DILocation(line: 51, column: 7, scope: !509)
!509 = distinct !DILexicalBlock(scope: !494, file: !210, line: 51, column: 7)
!510 = !DILocation(line: 51, column: 12, scope: !509)
!511 = !DILocation(line: 51, column: 16, scope: !509)
!512 = !DILocation(line: 51, column: 19, scope: !509)
!513 = !DILocation(line: 51, column: 24, scope: !509)
!514 = !DILocation(line: 51, column: 29, scope: !509)
!515 = !DILocation(line: 51, column: 32, scope: !509)
!516 = !DILocation(line: 51, column: 37, scope: !509)
!517 = !DILocation(line: 51, column: 7, scope: !494)
!518 = !DILocation(line: 52, column: 5, scope: !519)
!519 = distinct !DILexicalBlock(scope: !509, file: !210, line: 51, column: 43)
!520 = !DILocation(line: 52, column: 11, scope: !519)
!521 = !DILocation(line: 53, column: 12, scope: !519)
!522 = !DILocation(line: 53, column: 5, scope: !519)
!523 = !DILocation(line: 55, column: 3, scope: !494)
!524 = !DILocation(line: 55, column: 20, scope: !494)
!525 = !DILocation(line: 55, column: 19, scope: !494)
!526 = !DILocation(line: 55, column: 10, scope: !494)
!527 = !DILocation(line: 56, column: 9, scope: !494)
!528 = distinct !{!528, !523, !527, !298}
!529 = !DILocation(line: 57, column: 26, scope: !494)
!530 = !DILocation(line: 57, column: 25, scope: !494)
!531 = !DILocation(line: 57, column: 31, scope: !494)
!532 = !DILocation(line: 57, column: 3, scope: !494)
!533 = !DILocation(line: 57, column: 11, scope: !494)
!534 = !DILocation(line: 57, column: 23, scope: !494)
!535 = !DILocation(line: 58, column: 8, scope: !536)
!536 = distinct !DILexicalBlock(scope: !494, file: !210, line: 58, column: 7)
!537 = !DILocation(line: 58, column: 7, scope: !536)
!538 = !DILocation(line: 58, column: 13, scope: !536)
!539 = !DILocation(line: 58, column: 20, scope: !536)
!540 = !DILocation(line: 58, column: 24, scope: !536)
!541 = !DILocation(line: 58, column: 23, scope: !536)
!542 = !DILocation(line: 58, column: 29, scope: !536)
!543 = !DILocation(line: 58, column: 7, scope: !494)
!544 = !DILocation(line: 59, column: 9, scope: !536)
!545 = !DILocation(line: 59, column: 5, scope: !536)
!546 = !DILocation(line: 60, column: 8, scope: !547)
!547 = distinct !DILexicalBlock(scope: !494, file: !210, line: 60, column: 7)
!548 = !DILocation(line: 60, column: 13, scope: !547)
!549 = !DILocation(line: 60, column: 18, scope: !547)
!550 = !DILocation(line: 60, column: 21, scope: !547)
!551 = !DILocation(line: 60, column: 26, scope: !547)
!552 = !DILocation(line: 60, column: 33, scope: !547)
!553 = !DILocation(line: 60, column: 47, scope: !547)
!554 = !DILocation(line: 60, column: 36, scope: !547)
!555 = !DILocation(line: 60, column: 7, scope: !494)
!556 = !DILocation(line: 61, column: 10, scope: !557)
!557 = distinct !DILexicalBlock(scope: !547, file: !210, line: 60, column: 54)
!558 = !DILocation(line: 62, column: 10, scope: !557)
!559 = !DILocation(line: 63, column: 3, scope: !557)
!560 = !DILocation(line: 63, column: 14, scope: !561)
!561 = distinct !DILexicalBlock(scope: !547, file: !210, line: 63, column: 14)
!562 = !DILocation(line: 63, column: 19, scope: !561)
!563 = !DILocation(line: 63, column: 14, scope: !547)
!564 = !DILocation(line: 64, column: 13, scope: !565)
!565 = distinct !DILexicalBlock(scope: !561, file: !210, line: 63, column: 25)
!566 = !DILocation(line: 64, column: 12, scope: !565)
!567 = !DILocation(line: 64, column: 18, scope: !565)
!568 = !DILocation(line: 64, column: 10, scope: !565)
!569 = !DILocation(line: 65, column: 3, scope: !565)
!570 = !DILocation(line: 66, column: 15, scope: !494)
!571 = !DILocation(line: 66, column: 21, scope: !494)
!572 = !DILocation(line: 66, column: 27, scope: !494)
!573 = !DILocation(line: 66, column: 3, scope: !494)
!574 = !DILocation(line: 67, column: 10, scope: !494)
!575 = !DILocation(line: 67, column: 3, scope: !494)
!576 = !DILocation(line: 68, column: 1, scope: !494)
!577 = !DILocation(line: 8, column: 3, scope: !92)
!578 = distinct !DISubprogram(name: "is_space", scope: !210, file: !210, line: 22, type: !579, scopeLine: 22, flags: DIFlagPrototyped, spFlags: DISPFlagLocalToUnit | DISPFlagDefinition, unit: !209, retainedNodes: !114)
!579 = !DISubroutineType(types: !580)
!580 = !{!74, !4}
!581 = !DILocalVariable(name: "c", arg: 1, scope: !578, file: !210, line: 22, type: !4)
!582 = !DILocation(line: 22, column: 26, scope: !578)
!583 = !DILocation(line: 22, column: 38, scope: !578)
!584 = !DILocation(line: 22, column: 40, scope: !578)
!585 = !DILocation(line: 22, column: 47, scope: !578)
!586 = !DILocation(line: 22, column: 51, scope: !578)
!587 = !DILocation(line: 22, column: 53, scope: !578)
!588 = !DILocation(line: 22, column: 61, scope: !578)
!589 = !DILocation(line: 22, column: 64, scope: !578)
!590 = !DILocation(line: 22, column: 66, scope: !578)
!591 = !DILocation(line: 0, scope: !578)
!592 = !DILocation(line: 22, column: 31, scope: !578)
!593 = distinct !DISubprogram(name: "has_prefix", scope: !210, file: !210, line: 35, type: !436, scopeLine: 35, flags: DIFlagPrototyped, spFlags: DISPFlagLocalToUnit | DISPFlagDefinition, unit: !209, retainedNodes: !114)
!594 = !DILocalVariable(name: "text", arg: 1, scope: !593, file: !210, line: 35, type: !108)
!595 = !DILocation(line: 35, column: 35, scope: !593)
!596 = !DILocation(line: 35, column: 50, scope: !593)
!597 = !DILocation(line: 35, column: 58, scope: !593)
!598 = !DILocation(line: 35, column: 65, scope: !593)
!599 = !DILocation(line: 35, column: 69, scope: !593)
!600 = !DILocation(line: 35, column: 77, scope: !593)
!601 = !DILocation(line: 35, column: 84, scope: !593)
!602 = !DILocation(line: 35, column: 87, scope: !593)
!603 = !DILocation(line: 35, column: 95, scope: !593)
!604 = !DILocation(line: 35, column: 103, scope: !593)
!605 = !DILocation(line: 35, column: 112, scope: !593)
!606 = !DILocation(line: 35, column: 106, scope: !593)
!607 = !DILocation(line: 35, column: 121, scope: !593)
!608 = !DILocation(line: 0, scope: !593)
!609 = !DILocation(line: 35, column: 43, scope: !593)
!610 = distinct !DISubprogram(name: "read_digits", scope: !210, file: !210, line: 37, type: !611, scopeLine: 37, flags: DIFlagPrototyped, spFlags: DISPFlagLocalToUnit | DISPFlagDefinition, unit: !209, retainedNodes: !114)
!611 = !DISubroutineType(types: !612)
!612 = !{null, !108, !83, !497}
!613 = !DILocalVariable(name: "text", arg: 1, scope: !610, file: !210, line: 37, type: !108)
!614 = !DILocation(line: 37, column: 37, scope: !610)
!615 = !DILocalVariable(name: "base", arg: 2, scope: !610, file: !210, line: 37, type: !83)
!616 = !DILocation(line: 37, column: 52, scope: !610)
!617 = !DILocalVariable(name: "number", arg: 3, scope: !610, file: !210, line: 37, type: !497)
!618 = !DILocation(line: 37, column: 73, scope: !610)
!619 = !DILocation(line: 38, column: 3, scope: !610)
!620 = !DILocation(line: 38, column: 17, scope: !621)
!621 = distinct !DILexicalBlock(scope: !622, file: !210, line: 38, column: 3)
!622 = distinct !DILexicalBlock(scope: !610, file: !210, line: 38, column: 3)
!623 = !DILocation(line: 38, column: 16, scope: !621)
!624 = !DILocation(line: 38, column: 10, scope: !621)
!625 = !DILocation(line: 38, column: 25, scope: !621)
!626 = !DILocation(line: 38, column: 23, scope: !621)
!627 = !DILocation(line: 38, column: 3, scope: !622)
!628 = !DILocalVariable(name: "next", scope: !629, file: !210, line: 39, type: !83)
!629 = distinct !DILexicalBlock(scope: !621, file: !210, line: 38, column: 39)
!630 = !DILocation(line: 39, column: 14, scope: !629)
!631 = !DILocation(line: 39, column: 28, scope: !629)
!632 = !DILocation(line: 39, column: 27, scope: !629)
!633 = !DILocation(line: 39, column: 21, scope: !629)
!634 = !DILocation(line: 40, column: 9, scope: !635)
!635 = distinct !DILexicalBlock(scope: !629, file: !210, line: 40, column: 9)
!636 = !DILocation(line: 40, column: 17, scope: !635)
!637 = !DILocation(line: 40, column: 42, scope: !635)
!638 = !DILocation(line: 40, column: 40, scope: !635)
!639 = !DILocation(line: 40, column: 50, scope: !635)
!640 = !DILocation(line: 40, column: 48, scope: !635)
!641 = !DILocation(line: 40, column: 27, scope: !635)
!642 = !DILocation(line: 40, column: 9, scope: !629)
!643 = !DILocation(line: 41, column: 7, scope: !635)
!644 = !DILocation(line: 41, column: 15, scope: !635)
!645 = !DILocation(line: 41, column: 28, scope: !635)
!646 = !DILocation(line: 42, column: 25, scope: !629)
!647 = !DILocation(line: 42, column: 33, scope: !629)
!648 = !DILocation(line: 42, column: 45, scope: !629)
!649 = !DILocation(line: 42, column: 43, scope: !629)
!650 = !DILocation(line: 42, column: 52, scope: !629)
!651 = !DILocation(line: 42, column: 50, scope: !629)
!652 = !DILocation(line: 42, column: 5, scope: !629)
!653 = !DILocation(line: 42, column: 13, scope: !629)
!654 = !DILocation(line: 42, column: 23, scope: !629)
!655 = !DILocation(line: 43, column: 19, scope: !629)
!656 = !DILocation(line: 43, column: 24, scope: !629)
!657 = !DILocation(line: 43, column: 5, scope: !629)
!658 = !DILocation(line: 43, column: 13, scope: !629)
!659 = !DILocation(line: 43, column: 17, scope: !629)
!660 = !DILocation(line: 44, column: 3, scope: !629)
!661 = !DILocation(line: 38, column: 35, scope: !621)
!662 = !DILocation(line: 38, column: 3, scope: !621)
!663 = distinct !{!663, !627, !664, !298}
!664 = !DILocation(line: 44, column: 3, scope: !622)
!665 = !DILocation(line: 45, column: 7, scope: !666)
!666 = distinct !DILexicalBlock(scope: !610, file: !210, line: 45, column: 7)
!667 = !DILocation(line: 45, column: 15, scope: !666)
!668 = !DILocation(line: 45, column: 7, scope: !610)
!669 = !DILocation(line: 46, column: 5, scope: !666)
!670 = !DILocation(line: 46, column: 13, scope: !666)
!671 = !DILocation(line: 46, column: 23, scope: !666)
!672 = !DILocation(line: 47, column: 1, scope: !610)
!673 = distinct !DISubprogram(name: "digit", scope: !210, file: !210, line: 25, type: !674, scopeLine: 25, flags: DIFlagPrototyped, spFlags: DISPFlagLocalToUnit | DISPFlagDefinition, unit: !209, retainedNodes: !114)
!674 = !DISubroutineType(types: !675)
!675 = !{!83, !4}
!676 = !DILocalVariable(name: "c", arg: 1, scope: !673, file: !210, line: 25, type: !4)
!677 = !DILocation(line: 25, column: 28, scope: !673)
!678 = !DILocation(line: 26, column: 7, scope: !679)
!679 = distinct !DILexicalBlock(scope: !673, file: !210, line: 26, column: 7)
!680 = !DILocation(line: 26, column: 9, scope: !679)
!681 = !DILocation(line: 26, column: 16, scope: !679)
!682 = !DILocation(line: 26, column: 19, scope: !679)
!683 = !DILocation(line: 26, column: 21, scope: !679)
!684 = !DILocation(line: 26, column: 7, scope: !673)
!685 = !DILocation(line: 27, column: 12, scope: !679)
!686 = !DILocation(line: 27, column: 14, scope: !679)
!687 = !DILocation(line: 27, column: 5, scope: !679)
!688 = !DILocation(line: 28, column: 7, scope: !689)
!689 = distinct !DILexicalBlock(scope: !673, file: !210, line: 28, column: 7)
!690 = !DILocation(line: 28, column: 9, scope: !689)
!691 = !DILocation(line: 28, column: 16, scope: !689)
!692 = !DILocation(line: 28, column: 19, scope: !689)
!693 = !DILocation(line: 28, column: 21, scope: !689)
!694 = !DILocation(line: 28, column: 7, scope: !673)
!695 = !DILocation(line: 29, column: 12, scope: !689)
!696 = !DILocation(line: 29, column: 14, scope: !689)
!697 = !DILocation(line: 29, column: 20, scope: !689)
!698 = !DILocation(line: 29, column: 5, scope: !689)
!699 = !DILocation(line: 30, column: 7, scope: !700)
!700 = distinct !DILexicalBlock(scope: !673, file: !210, line: 30, column: 7)
!701 = !DILocation(line: 30, column: 9, scope: !700)
!702 = !DILocation(line: 30, column: 16, scope: !700)
!703 = !DILocation(line: 30, column: 19, scope: !700)
!704 = !DILocation(line: 30, column: 21, scope: !700)
!705 = !DILocation(line: 30, column: 7, scope: !673)
!706 = !DILocation(line: 31, column: 12, scope: !700)
!707 = !DILocation(line: 31, column: 14, scope: !700)
!708 = !DILocation(line: 31, column: 20, scope: !700)
!709 = !DILocation(line: 31, column: 5, scope: !700)
!710 = !DILocation(line: 32, column: 3, scope: !673)
!711 = !DILocation(line: 33, column: 1, scope: !673)
!712 = distinct !DISubprogram(name: "strcpy", scope: !102, file: !102, line: 13, type: !103, scopeLine: 13, flags: DIFlagPrototyped, spFlags: DISPFlagDefinition, unit: !109, retainedNodes: !114)
!713 = !DILocalVariable(name: "to", arg: 1, scope: !712, file: !102, line: 13, type: !106)
!714 = !DILocation(line: 13, column: 34, scope: !712)
!715 = !DILocalVariable(name: "from", arg: 2, scope: !712, file: !102, line: 13, type: !107)
!716 = !DILocation(line: 13, column: 59, scope: !712)
!717 = !DILocalVariable(name: "k", scope: !712, file: !102, line: 14, type: !195)
!718 = !DILocation(line: 14, column: 10, scope: !712)
!719 = !DILocation(line: 15, column: 3, scope: !712)
!720 = !DILocation(line: 15, column: 19, scope: !712)
!721 = !DILocation(line: 15, column: 24, scope: !712)
!722 = !DILocation(line: 15, column: 11, scope: !712)
!723 = !DILocation(line: 15, column: 14, scope: !712)
!724 = !DILocation(line: 15, column: 17, scope: !712)
!725 = !DILocation(line: 16, column: 6, scope: !712)
!726 = distinct !{!726, !719, !725, !298}
!727 = !DILocation(line: 17, column: 10, scope: !712)
!728 = !DILocation(line: 17, column: 3, scope: !712)
!729 = distinct !DISubprogram(name: "strcat", scope: !102, file: !102, line: 44, type: !103, scopeLine: 44, flags: DIFlagPrototyped, spFlags: DISPFlagDefinition, unit: !109, retainedNodes: !114)
!730 = !DILocalVariable(name: "to", arg: 1, scope: !729, file: !102, line: 44, type: !106)
!731 = !DILocation(line: 44, column: 34, scope: !729)
!732 = !DILocalVariable(name: "from", arg: 2, scope: !729, file: !102, line: 44, type: !107)
!733 = !DILocation(line: 44, column: 59, scope: !729)
!734 = !DILocalVariable(name: "end", scope: !729, file: !102, line: 45, type: !105)
!735 = !DILocation(line: 45, column: 9, scope: !729)
!736 = !DILocation(line: 45, column: 15, scope: !729)
!737 = !DILocation(line: 46, column: 3, scope: !729)
!738 = !DILocation(line: 46, column: 11, scope: !729)
!739 = !DILocation(line: 46, column: 10, scope: !729)
!740 = !DILocation(line: 47, column: 8, scope: !729)
!741 = distinct !{!741, !737, !740, !298}
!742 = !DILocation(line: 48, column: 3, scope: !729)
!743 = !DILocation(line: 48, column: 19, scope: !744)
!744 = distinct !DILexicalBlock(scope: !745, file: !102, line: 48, column: 3)
!745 = distinct !DILexicalBlock(scope: !729, file: !102, line: 48, column: 3)
!746 = !DILocation(line: 48, column: 18, scope: !744)
!747 = !DILocation(line: 48, column: 12, scope: !744)
!748 = !DILocation(line: 48, column: 16, scope: !744)
!749 = !DILocation(line: 48, column: 3, scope: !745)
!750 = !DILocation(line: 49, column: 9, scope: !744)
!751 = !DILocation(line: 49, column: 5, scope: !744)
!752 = !DILocation(line: 48, column: 29, scope: !744)
!753 = !DILocation(line: 48, column: 3, scope: !744)
!754 = distinct !{!754, !749, !755, !298}
!755 = !DILocation(line: 49, column: 9, scope: !745)
!756 = !DILocation(line: 50, column: 10, scope: !729)
!757 = !DILocation(line: 50, column: 3, scope: !729)
!758 = distinct !DISubprogram(name: "strdup", scope: !102, file: !102, line: 77, type: !759, scopeLine: 77, flags: DIFlagPrototyped, spFlags: DISPFlagDefinition, unit: !109, retainedNodes: !114)
!759 = !DISubroutineType(types: !760)
!760 = !{!105, !108}
!761 = !DILocalVariable(name: "text", arg: 1, scope: !758, file: !102, line: 77, type: !108)
!762 = !DILocation(line: 77, column: 31, scope: !758)
!763 = !DILocalVariable(name: "length", scope: !758, file: !102, line: 78, type: !195)
!764 = !DILocation(line: 78, column: 10, scope: !758)
!765 = !DILocation(line: 79, column: 3, scope: !758)
!766 = !DILocation(line: 79, column: 10, scope: !758)
!767 = !DILocation(line: 79, column: 15, scope: !758)
!768 = !DILocation(line: 80, column: 11, scope: !758)
!769 = distinct !{!769, !765, !768, !298}
!770 = !DILocalVariable(name: "copy", scope: !758, file: !102, line: 81, type: !105)
!771 = !DILocation(line: 81, column: 9, scope: !758)
!772 = !DILocation(line: 81, column: 23, scope: !758)
!773 = !DILocation(line: 81, column: 30, scope: !758)
!774 = !DILocation(line: 81, column: 16, scope: !758)
!775 = !DILocation(line: 82, column: 7, scope: !776)
!776 = distinct !DILexicalBlock(scope: !758, file: !102, line: 82, column: 7)
!777 = !DILocation(line: 82, column: 7, scope: !758)
!778 = !DILocation(line: 83, column: 12, scope: !776)
!779 = !DILocation(line: 83, column: 18, scope: !776)
!780 = !DILocation(line: 83, column: 24, scope: !776)
!781 = !DILocation(line: 83, column: 31, scope: !776)
!782 = !DILocation(line: 83, column: 5, scope: !776)
!783 = !DILocation(line: 84, column: 10, scope: !758)
!784 = !DILocation(line: 84, column: 3, scope: !758)
!785 = distinct !DISubprogram(name: "strcmp", scope: !102, file: !102, line: 101, type: !786, scopeLine: 101, flags: DIFlagPrototyped, spFlags: DISPFlagDefinition, unit: !109, retainedNodes: !114)
!786 = !DISubroutineType(types: !787)
!787 = !{!74, !108, !108}
!788 = !DILocalVariable(name: "one", arg: 1, scope: !785, file: !102, line: 101, type: !108)
!789 = !DILocation(line: 101, column: 29, scope: !785)
!790 = !DILocalVariable(name: "two", arg: 2, scope: !785, file: !102, line: 101, type: !108)
!791 = !DILocation(line: 101, column: 46, scope: !785)
!792 = !DILocation(line: 102, column: 3, scope: !785)
!793 = !DILocation(line: 102, column: 11, scope: !794)
!794 = distinct !DILexicalBlock(scope: !795, file: !102, line: 102, column: 3)
!795 = distinct !DILexicalBlock(scope: !785, file: !102, line: 102, column: 3)
!796 = !DILocation(line: 102, column: 10, scope: !794)
!797 = !DILocation(line: 102, column: 15, scope: !794)
!798 = !DILocation(line: 102, column: 19, scope: !794)
!799 = !DILocation(line: 102, column: 18, scope: !794)
!800 = !DILocation(line: 102, column: 27, scope: !794)
!801 = !DILocation(line: 102, column: 26, scope: !794)
!802 = !DILocation(line: 102, column: 23, scope: !794)
!803 = !DILocation(line: 0, scope: !794)
!804 = !DILocation(line: 102, column: 3, scope: !795)
!805 = !DILocation(line: 103, column: 8, scope: !794)
!806 = !DILocation(line: 103, column: 5, scope: !794)
!807 = !DILocation(line: 102, column: 35, scope: !794)
!808 = !DILocation(line: 102, column: 3, scope: !794)
!809 = distinct !{!809, !804, !810, !298}
!810 = !DILocation(line: 103, column: 8, scope: !795)
!811 = !DILocation(line: 104, column: 26, scope: !785)
!812 = !DILocation(line: 104, column: 25, scope: !785)
!813 = !DILocation(line: 104, column: 10, scope: !785)
!814 = !DILocation(line: 104, column: 48, scope: !785)
!815 = !DILocation(line: 104, column: 47, scope: !785)
!816 = !DILocation(line: 104, column: 32, scope: !785)
!817 = !DILocation(line: 104, column: 30, scope: !785)
!818 = !DILocation(line: 104, column: 3, scope: !785)
!819 = distinct !DISubprogram(name: "strchr", scope: !102, file: !102, line: 151, type: !820, scopeLine: 151, flags: DIFlagPrototyped, spFlags: DISPFlagDefinition, unit: !109, retainedNodes: !114)
!820 = !DISubroutineType(types: !821)
!821 = !{!105, !108, !74}
!822 = !DILocalVariable(name: "text", arg: 1, scope: !819, file: !102, line: 151, type: !108)
!823 = !DILocation(line: 151, column: 31, scope: !819)
!824 = !DILocalVariable(name: "wanted", arg: 2, scope: !819, file: !102, line: 151, type: !74)
!825 = !DILocation(line: 151, column: 41, scope: !819)
!826 = !DILocation(line: 152, column: 3, scope: !819)
!827 = !DILocation(line: 152, column: 11, scope: !828)
!828 = distinct !DILexicalBlock(scope: !829, file: !102, line: 152, column: 3)
!829 = distinct !DILexicalBlock(scope: !819, file: !102, line: 152, column: 3)
!830 = !DILocation(line: 152, column: 10, scope: !828)
!831 = !DILocation(line: 152, column: 25, scope: !828)
!832 = !DILocation(line: 152, column: 19, scope: !828)
!833 = !DILocation(line: 152, column: 16, scope: !828)
!834 = !DILocation(line: 152, column: 3, scope: !829)
!835 = !DILocation(line: 153, column: 11, scope: !836)
!836 = distinct !DILexicalBlock(scope: !828, file: !102, line: 153, column: 9)
!837 = !DILocation(line: 153, column: 10, scope: !836)
!838 = !DILocation(line: 153, column: 9, scope: !828)
!839 = !DILocation(line: 154, column: 7, scope: !836)
!840 = !DILocation(line: 152, column: 37, scope: !828)
!841 = !DILocation(line: 152, column: 3, scope: !828)
!842 = distinct !{!842, !834, !843, !298}
!843 = !DILocation(line: 154, column: 14, scope: !829)
!844 = !DILocation(line: 155, column: 18, scope: !819)
!845 = !DILocation(line: 155, column: 3, scope: !819)
!846 = !DILocation(line: 156, column: 1, scope: !819)
!847 = distinct !DISubprogram(name: "strspn", scope: !102, file: !102, line: 193, type: !848, scopeLine: 193, flags: DIFlagPrototyped, spFlags: DISPFlagDefinition, unit: !109, retainedNodes: !114)
!848 = !DISubroutineType(types: !849)
!849 = !{!195, !108, !108}
!850 = !DILocalVariable(name: "text", arg: 1, scope: !847, file: !102, line: 193, type: !108)
!851 = !DILocation(line: 193, column: 32, scope: !847)
!852 = !DILocalVariable(name: "accepted", arg: 2, scope: !847, file: !102, line: 193, type: !108)
!853 = !DILocation(line: 193, column: 50, scope: !847)
!854 = !DILocalVariable(name: "length", scope: !847, file: !102, line: 194, type: !195)
!855 = !DILocation(line: 194, column: 10, scope: !847)
!856 = !DILocation(line: 195, column: 3, scope: !847)
!857 = !DILocation(line: 195, column: 10, scope: !847)
!858 = !DILocation(line: 195, column: 15, scope: !847)
!859 = !DILocation(line: 195, column: 23, scope: !847)
!860 = !DILocation(line: 195, column: 35, scope: !847)
!861 = !DILocation(line: 195, column: 40, scope: !847)
!862 = !DILocation(line: 195, column: 49, scope: !847)
!863 = !DILocation(line: 195, column: 26, scope: !847)
!864 = !DILocation(line: 0, scope: !847)
!865 = !DILocation(line: 196, column: 11, scope: !847)
!866 = distinct !{!866, !856, !865, !298}
!867 = !DILocation(line: 197, column: 10, scope: !847)
!868 = !DILocation(line: 197, column: 3, scope: !847)
!869 = distinct !DISubprogram(name: "is_among", scope: !102, file: !102, line: 186, type: !870, scopeLine: 186, flags: DIFlagPrototyped, spFlags: DISPFlagLocalToUnit | DISPFlagDefinition, unit: !109, retainedNodes: !114)
!870 = !DISubroutineType(types: !871)
!871 = !{!74, !4, !108}
!872 = !DILocalVariable(name: "wanted", arg: 1, scope: !869, file: !102, line: 186, type: !4)
!873 = !DILocation(line: 186, column: 26, scope: !869)
!874 = !DILocalVariable(name: "set", arg: 2, scope: !869, file: !102, line: 186, type: !108)
!875 = !DILocation(line: 186, column: 46, scope: !869)
!876 = !DILocation(line: 187, column: 3, scope: !869)
!877 = !DILocation(line: 187, column: 11, scope: !878)
!878 = distinct !DILexicalBlock(scope: !879, file: !102, line: 187, column: 3)
!879 = distinct !DILexicalBlock(scope: !869, file: !102, line: 187, column: 3)
!880 = !DILocation(line: 187, column: 10, scope: !878)
!881 = !DILocation(line: 187, column: 3, scope: !879)
!882 = !DILocation(line: 188, column: 10, scope: !883)
!883 = distinct !DILexicalBlock(scope: !878, file: !102, line: 188, column: 9)
!884 = !DILocation(line: 188, column: 9, scope: !883)
!885 = !DILocation(line: 188, column: 17, scope: !883)
!886 = !DILocation(line: 188, column: 14, scope: !883)
!887 = !DILocation(line: 188, column: 9, scope: !878)
!888 = !DILocation(line: 189, column: 7, scope: !883)
!889 = !DILocation(line: 187, column: 19, scope: !878)
!890 = !DILocation(line: 187, column: 3, scope: !878)
!891 = distinct !{!891, !881, !892, !298}
!892 = !DILocation(line: 189, column: 14, scope: !879)
!893 = !DILocation(line: 190, column: 3, scope: !869)
!894 = !DILocation(line: 191, column: 1, scope: !869)
!895 = !DILocalVariable(name: "text", arg: 1, scope: !101, file: !102, line: 241, type: !106)
!896 = !DILocation(line: 241, column: 34, scope: !101)
!897 = !DILocalVariable(name: "separators", arg: 2, scope: !101, file: !102, line: 241, type: !107)
!898 = !DILocation(line: 241, column: 61, scope: !101)
!899 = !DILocation(line: 243, column: 21, scope: !101)
!900 = !DILocation(line: 243, column: 27, scope: !101)
!901 = !DILocation(line: 243, column: 10, scope: !101)
!902 = !DILocation(line: 243, column: 3, scope: !101)
!903 = distinct !DISubprogram(name: "next_token", scope: !102, file: !102, line: 226, type: !904, scopeLine: 226, flags: DIFlagPrototyped, spFlags: DISPFlagLocalToUnit | DISPFlagDefinition, unit: !109, retainedNodes: !114)
!904 = !DISubroutineType(types: !905)
!905 = !{!105, !105, !108, !447}
!906 = !DILocalVariable(name: "text", arg: 1, scope: !903, file: !102, line: 226, type: !105)
!907 = !DILocation(line: 226, column: 31, scope: !903)
!908 = !DILocalVariable(name: "separators", arg: 2, scope: !903, file: !102, line: 226, type: !108)
!909 = !DILocation(line: 226, column: 49, scope: !903)
!910 = !DILocalVariable(name: "rest", arg: 3, scope: !903, file: !102, line: 226, type: !447)
!911 = !DILocation(line: 226, column: 68, scope: !903)
!912 = !DILocation(line: 227, column: 8, scope: !913)
!913 = distinct !DILexicalBlock(scope: !903, file: !102, line: 227, column: 7)
!914 = !DILocation(line: 227, column: 7, scope: !903)
!915 = !DILocation(line: 228, column: 13, scope: !913)
!916 = !DILocation(line: 228, column: 12, scope: !913)
!917 = !DILocation(line: 228, column: 10, scope: !913)
!918 = !DILocation(line: 228, column: 5, scope: !913)
!919 = !DILocation(line: 229, column: 3, scope: !903)
!920 = !DILocation(line: 229, column: 10, scope: !903)
!921 = !DILocation(line: 229, column: 15, scope: !903)
!922 = !DILocation(line: 229, column: 19, scope: !903)
!923 = !DILocation(line: 229, column: 18, scope: !903)
!924 = !DILocation(line: 229, column: 24, scope: !903)
!925 = !DILocation(line: 229, column: 37, scope: !903)
!926 = !DILocation(line: 229, column: 36, scope: !903)
!927 = !DILocation(line: 229, column: 43, scope: !903)
!928 = !DILocation(line: 229, column: 27, scope: !903)
!929 = !DILocation(line: 0, scope: !903)
!930 = !DILocation(line: 230, column: 9, scope: !903)
!931 = distinct !{!931, !919, !930, !298}
!932 = !DILocation(line: 231, column: 8, scope: !933)
!933 = distinct !DILexicalBlock(scope: !903, file: !102, line: 231, column: 7)
!934 = !DILocation(line: 231, column: 13, scope: !933)
!935 = !DILocation(line: 231, column: 18, scope: !933)
!936 = !DILocation(line: 231, column: 17, scope: !933)
!937 = !DILocation(line: 231, column: 7, scope: !903)
!938 = !DILocation(line: 232, column: 13, scope: !933)
!939 = !DILocation(line: 232, column: 18, scope: !933)
!940 = !DILocation(line: 232, column: 5, scope: !933)
!941 = !DILocation(line: 233, column: 15, scope: !903)
!942 = !DILocation(line: 233, column: 21, scope: !903)
!943 = !DILocation(line: 233, column: 11, scope: !903)
!944 = !DILocation(line: 233, column: 4, scope: !903)
!945 = !DILocation(line: 233, column: 9, scope: !903)
!946 = !DILocation(line: 234, column: 10, scope: !903)
!947 = !DILocation(line: 234, column: 3, scope: !903)
!948 = !DILocation(line: 235, column: 1, scope: !903)
!949 = distinct !DISubprogram(name: "cut", scope: !102, file: !102, line: 218, type: !950, scopeLine: 218, flags: DIFlagPrototyped, spFlags: DISPFlagLocalToUnit | DISPFlagDefinition, unit: !109, retainedNodes: !114)
!950 = !DISubroutineType(types: !951)
!951 = !{!105, !105, !108}
!952 = !DILocalVariable(name: "text", arg: 1, scope: !949, file: !102, line: 218, type: !105)
!953 = !DILocation(line: 218, column: 24, scope: !949)
!954 = !DILocalVariable(name: "separators", arg: 2, scope: !949, file: !102, line: 218, type: !108)
!955 = !DILocation(line: 218, column: 42, scope: !949)
!956 = !DILocalVariable(name: "end", scope: !949, file: !102, line: 219, type: !105)
!957 = !DILocation(line: 219, column: 9, scope: !949)
!958 = !DILocation(line: 219, column: 15, scope: !949)
!959 = !DILocation(line: 219, column: 36, scope: !949)
!960 = !DILocation(line: 219, column: 42, scope: !949)
!961 = !DILocation(line: 219, column: 22, scope: !949)
!962 = !DILocation(line: 219, column: 20, scope: !949)
!963 = !DILocation(line: 220, column: 9, scope: !964)
!964 = distinct !DILexicalBlock(scope: !949, file: !102, line: 220, column: 7)
!965 = !DILocation(line: 220, column: 8, scope: !964)
!966 = !DILocation(line: 220, column: 7, scope: !949)
!967 = !DILocation(line: 221, column: 5, scope: !964)
!968 = !DILocation(line: 222, column: 4, scope: !949)
!969 = !DILocation(line: 222, column: 8, scope: !949)
!970 = !DILocation(line: 223, column: 10, scope: !949)
!971 = !DILocation(line: 223, column: 14, scope: !949)
!972 = !DILocation(line: 223, column: 3, scope: !949)
!973 = !DILocation(line: 224, column: 1, scope: !949)
!974 = distinct !DISubprogram(name: "length_before", scope: !102, file: !102, line: 201, type: !848, scopeLine: 201, flags: DIFlagPrototyped, spFlags: DISPFlagLocalToUnit | DISPFlagDefinition, unit: !109, retainedNodes: !114)
!975 = !DILocalVariable(name: "text", arg: 1, scope: !974, file: !102, line: 201, type: !108)
!976 = !DILocation(line: 201, column: 41, scope: !974)
!977 = !DILocalVariable(name: "set", arg: 2, scope: !974, file: !102, line: 201, type: !108)
!978 = !DILocation(line: 201, column: 59, scope: !974)
!979 = !DILocalVariable(name: "length", scope: !974, file: !102, line: 202, type: !195)
!980 = !DILocation(line: 202, column: 10, scope: !974)
!981 = !DILocation(line: 203, column: 3, scope: !974)
!982 = !DILocation(line: 203, column: 10, scope: !974)
!983 = !DILocation(line: 203, column: 15, scope: !974)
!984 = !DILocation(line: 203, column: 23, scope: !974)
!985 = !DILocation(line: 203, column: 36, scope: !974)
!986 = !DILocation(line: 203, column: 41, scope: !974)
!987 = !DILocation(line: 203, column: 50, scope: !974)
!988 = !DILocation(line: 203, column: 27, scope: !974)
!989 = !DILocation(line: 203, column: 26, scope: !974)
!990 = !DILocation(line: 0, scope: !974)
!991 = !DILocation(line: 204, column: 11, scope: !974)
!992 = distinct !{!992, !981, !991, !298}
!993 = !DILocation(line: 205, column: 10, scope: !974)
!994 = !DILocation(line: 205, column: 3, scope: !974)
