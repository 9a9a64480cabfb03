; ModuleID = 'list.c'
source_filename = "list.c"
target datalayout = "e-m:e-p270:32:32-p271:32:32-p272:64:64-i64:64-i128:128-f80:128-n8:16:32:64-S128"
target triple = "x86_64-pc-linux-gnu"

%struct.item = type { i32, ptr }

@.str = private unnamed_addr constant [4 x i8] c"%d\0A\00", align 1, !dbg !0

; Function Attrs: nounwind uwtable
define dso_local i32 @main() #0 !dbg !14 {
entry:
  %retval = alloca i32, align 4
  %first = alloca ptr, align 8
  %sum = alloca i32, align 4
  %item = alloca ptr, align 8
  store i32 0, ptr %retval, align 4
  call void @llvm.lifetime.start.p0(i64 8, ptr %first) #5, !dbg !28
    #dbg_declare(ptr %first, !19, !DIExpression(), !29)
  %call = call ptr @new_item(i32 noundef 5), !dbg !30
  store ptr %call, ptr %first, align 8, !dbg !29, !tbaa !31
  %call1 = call ptr @new_item(i32 noundef 7), !dbg !35
  %0 = load ptr, ptr %first, align 8, !dbg !36, !tbaa !31
  %next = getelementptr inbounds %struct.item, ptr %0, i32 0, i32 1, !dbg !37
  store ptr %call1, ptr %next, align 8, !dbg !38, !tbaa !39
  call void @llvm.lifetime.start.p0(i64 4, ptr %sum) #5, !dbg !42
    #dbg_declare(ptr %sum, !25, !DIExpression(), !43)
  store i32 0, ptr %sum, align 4, !dbg !43, !tbaa !44
  call void @llvm.lifetime.start.p0(i64 8, ptr %item) #5, !dbg !45
    #dbg_declare(ptr %item, !26, !DIExpression(), !46)
  %1 = load ptr, ptr %first, align 8, !dbg !47, !tbaa !31
  store ptr %1, ptr %item, align 8, !dbg !46, !tbaa !31
  br label %for.cond, !dbg !45

for.cond:                                         ; preds = %for.inc, %entry
  %2 = load ptr, ptr %item, align 8, !dbg !48, !tbaa !31
  %tobool = icmp ne ptr %2, null, !dbg !50
  br i1 %tobool, label %for.body, label %for.cond.cleanup, !dbg !50

for.cond.cleanup:                                 ; preds = %for.cond
  call void @llvm.lifetime.end.p0(i64 8, ptr %item) #5, !dbg !51
  br label %for.end

for.body:                                         ; preds = %for.cond
  %3 = load ptr, ptr %item, align 8, !dbg !52, !tbaa !31
  %price = getelementptr inbounds %struct.item, ptr %3, i32 0, i32 0, !dbg !53
  %4 = load i32, ptr %price, align 8, !dbg !53, !tbaa !54
  %5 = load i32, ptr %sum, align 4, !dbg !55, !tbaa !44
  %add = add i32 %5, %4, !dbg !55
  store i32 %add, ptr %sum, align 4, !dbg !55, !tbaa !44
  br label %for.inc, !dbg !56

for.inc:                                          ; preds = %for.body
  %6 = load ptr, ptr %item, align 8, !dbg !57, !tbaa !31
  %next2 = getelementptr inbounds %struct.item, ptr %6, i32 0, i32 1, !dbg !58
  %7 = load ptr, ptr %next2, align 8, !dbg !58, !tbaa !39
  store ptr %7, ptr %item, align 8, !dbg !59, !tbaa !31
  br label %for.cond, !dbg !51, !llvm.loop !60

for.end:                                          ; preds = %for.cond.cleanup
  %8 = load i32, ptr %sum, align 4, !dbg !64, !tbaa !44
  %call3 = call i32 (ptr, ...) @printf(ptr noundef @.str, i32 noundef %8), !dbg !65
  call void @llvm.lifetime.end.p0(i64 4, ptr %sum) #5, !dbg !66
  call void @llvm.lifetime.end.p0(i64 8, ptr %first) #5, !dbg !66
  ret i32 0, !dbg !67
}

; Function Attrs: nocallback nofree nosync nounwind willreturn memory(argmem: readwrite)
declare void @llvm.lifetime.start.p0(i64 immarg, ptr nocapture) #1

; Function Attrs: nounwind uwtable
define internal ptr @new_item(i32 noundef %price) #0 !dbg !68 {
entry:
  %price.addr = alloca i32, align 4
  %item = alloca ptr, align 8
  store i32 %price, ptr %price.addr, align 4, !tbaa !44
    #dbg_declare(ptr %price.addr, !72, !DIExpression(), !74)
  call void @llvm.lifetime.start.p0(i64 8, ptr %item) #5, !dbg !75
    #dbg_declare(ptr %item, !73, !DIExpression(), !76)
  %call = call noalias ptr @malloc(i64 noundef 16) #6, !dbg !77
  store ptr %call, ptr %item, align 8, !dbg !76, !tbaa !31
  %0 = load ptr, ptr %item, align 8, !dbg !78, !tbaa !31
  %tobool = icmp ne ptr %0, null, !dbg !78
  br i1 %tobool, label %if.end, label %if.then, !dbg !80

if.then:                                          ; preds = %entry
  call void @exit(i32 noundef 1) #7, !dbg !81
  unreachable, !dbg !81

if.end:                                           ; preds = %entry
  %1 = load i32, ptr %price.addr, align 4, !dbg !82, !tbaa !44
  %2 = load ptr, ptr %item, align 8, !dbg !83, !tbaa !31
  %price1 = getelementptr inbounds %struct.item, ptr %2, i32 0, i32 0, !dbg !84
  store i32 %1, ptr %price1, align 8, !dbg !85, !tbaa !54
  %3 = load ptr, ptr %item, align 8, !dbg !86, !tbaa !31
  call void @llvm.lifetime.end.p0(i64 8, ptr %item) #5, !dbg !87
  ret ptr %3, !dbg !88
}

; Function Attrs: nocallback nofree nosync nounwind willreturn memory(argmem: readwrite)
declare void @llvm.lifetime.end.p0(i64 immarg, ptr nocapture) #1

declare !dbg !89 dso_local i32 @printf(ptr noundef, ...) #2

; Function Attrs: nounwind allocsize(0)
declare !dbg !96 dso_local noalias ptr @malloc(i64 noundef) #3

; Function Attrs: noreturn nounwind
declare !dbg !104 dso_local void @exit(i32 noundef) #4

attributes #0 = { nounwind uwtable "min-legal-vector-width"="0" "no-trapping-math"="true" "stack-protector-buffer-size"="8" "target-cpu"="x86-64" "target-features"="+cmov,+cx8,+fxsr,+mmx,+sse,+sse2,+x87" "tune-cpu"="generic" }
attributes #1 = { nocallback nofree nosync nounwind willreturn memory(argmem: readwrite) }
attributes #2 = { "no-trapping-math"="true" "stack-protector-buffer-size"="8" "target-cpu"="x86-64" "target-features"="+cmov,+cx8,+fxsr,+mmx,+sse,+sse2,+x87" "tune-cpu"="generic" }
attributes #3 = { nounwind allocsize(0) "no-trapping-math"="true" "stack-protector-buffer-size"="8" "target-cpu"="x86-64" "target-features"="+cmov,+cx8,+fxsr,+mmx,+sse,+sse2,+x87" "tune-cpu"="generic" }
attributes #4 = { noreturn nounwind "no-trapping-math"="true" "stack-protector-buffer-size"="8" "target-cpu"="x86-64" "target-features"="+cmov,+cx8,+fxsr,+mmx,+sse,+sse2,+x87" "tune-cpu"="generic" }
attributes #5 = { nounwind }
attributes #6 = { nounwind allocsize(0) }
attributes #7 = { noreturn nounwind }

!llvm.dbg.cu = !{!7}
!llvm.module.flags = !{!9, !10, !11, !12}
!llvm.ident = !{!13}

!0 = !DIGlobalVariableExpression(var: !1, expr: !DIExpression())
!1 = distinct !DIGlobalVariable(scope: null, file: !2, line: 24, type: !3, isLocal: true, isDefinition: true)
!2 = !DIFile(filename: "list.c", directory: ".", checksumkind: CSK_MD5, checksum: "2b8352c2e50eaa88769004a71fd741c9")
!3 = !DICompositeType(tag: DW_TAG_array_type, baseType: !4, size: 32, elements: !5)
!4 = !DIBasicType(name: "char", size: 8, encoding: DW_ATE_signed_char)
!5 = !{!6}
!6 = !DISubrange(count: 4)
!7 = distinct !DICompileUnit(language: DW_LANG_C11, file: !2, producer: "Debian clang version 19.1.7 (3~deb12u1)", isOptimized: true, runtimeVersion: 0, emissionKind: FullDebug, globals: !8, splitDebugInlining: false, nameTableKind: None)
!8 = !{!0}
!9 = !{i32 7, !"Dwarf Version", i32 5}
!10 = !{i32 2, !"Debug Info Version", i32 3}
!11 = !{i32 1, !"wchar_size", i32 4}
!12 = !{i32 7, !"uwtable", i32 2}
!13 = !{!"Debian clang version 19.1.7 (3~deb12u1)"}
!14 = distinct !DISubprogram(name: "main", scope: !2, file: !2, line: 18, type: !15, scopeLine: 18, flags: DIFlagPrototyped | DIFlagAllCallsDescribed, spFlags: DISPFlagDefinition | DISPFlagOptimized, unit: !7, retainedNodes: !18)
!15 = !DISubroutineType(types: !16)
!16 = !{!17}
!17 = !DIBasicType(name: "int", size: 32, encoding: DW_ATE_signed)
!18 = !{!19, !25, !26}
!19 = !DILocalVariable(name: "first", scope: !14, file: !2, line: 19, type: !20)
!20 = !DIDerivedType(tag: DW_TAG_pointer_type, baseType: !21, size: 64)
!21 = distinct !DICompositeType(tag: DW_TAG_structure_type, name: "item", file: !2, line: 5, size: 128, elements: !22)
!22 = !{!23, !24}
!23 = !DIDerivedType(tag: DW_TAG_member, name: "price", scope: !21, file: !2, line: 6, baseType: !17, size: 32)
!24 = !DIDerivedType(tag: DW_TAG_member, name: "next", scope: !21, file: !2, line: 7, baseType: !20, size: 64, offset: 64)
!25 = !DILocalVariable(name: "sum", scope: !14, file: !2, line: 21, type: !17)
!26 = !DILocalVariable(name: "item", scope: !27, file: !2, line: 22, type: !20)
!27 = distinct !DILexicalBlock(scope: !14, file: !2, line: 22, column: 3)
!28 = !DILocation(line: 19, column: 3, scope: !14)
!29 = !DILocation(line: 19, column: 16, scope: !14)
!30 = !DILocation(line: 19, column: 24, scope: !14)
!31 = !{!32, !32, i64 0}
!32 = !{!"any pointer", !33, i64 0}
!33 = !{!"omnipotent char", !34, i64 0}
!34 = !{!"Simple C/C++ TBAA"}
!35 = !DILocation(line: 20, column: 17, scope: !14)
!36 = !DILocation(line: 20, column: 3, scope: !14)
!37 = !DILocation(line: 20, column: 10, scope: !14)
!38 = !DILocation(line: 20, column: 15, scope: !14)
!39 = !{!40, !32, i64 8}
!40 = !{!"item", !41, i64 0, !32, i64 8}
!41 = !{!"int", !33, i64 0}
!42 = !DILocation(line: 21, column: 3, scope: !14)
!43 = !DILocation(line: 21, column: 7, scope: !14)
!44 = !{!41, !41, i64 0}
!45 = !DILocation(line: 22, column: 8, scope: !27)
!46 = !DILocation(line: 22, column: 21, scope: !27)
!47 = !DILocation(line: 22, column: 28, scope: !27)
!48 = !DILocation(line: 22, column: 35, scope: !49)
!49 = distinct !DILexicalBlock(scope: !27, file: !2, line: 22, column: 3)
!50 = !DILocation(line: 22, column: 3, scope: !27)
!51 = !DILocation(line: 22, column: 3, scope: !49)
!52 = !DILocation(line: 23, column: 12, scope: !49)
!53 = !DILocation(line: 23, column: 18, scope: !49)
!54 = !{!40, !41, i64 0}
!55 = !DILocation(line: 23, column: 9, scope: !49)
!56 = !DILocation(line: 23, column: 5, scope: !49)
!57 = !DILocation(line: 22, column: 48, scope: !49)
!58 = !DILocation(line: 22, column: 54, scope: !49)
!59 = !DILocation(line: 22, column: 46, scope: !49)
!60 = distinct !{!60, !50, !61, !62, !63}
!61 = !DILocation(line: 23, column: 18, scope: !27)
!62 = !{!"llvm.loop.mustprogress"}
!63 = !{!"llvm.loop.unroll.disable"}
!64 = !DILocation(line: 24, column: 18, scope: !14)
!65 = !DILocation(line: 24, column: 3, scope: !14)
!66 = !DILocation(line: 26, column: 1, scope: !14)
!67 = !DILocation(line: 25, column: 3, scope: !14)
!68 = distinct !DISubprogram(name: "new_item", scope: !2, file: !2, line: 10, type: !69, scopeLine: 10, flags: DIFlagPrototyped | DIFlagAllCallsDescribed, spFlags: DISPFlagLocalToUnit | DISPFlagDefinition | DISPFlagOptimized, unit: !7, retainedNodes: !71)
!69 = !DISubroutineType(types: !70)
!70 = !{!20, !17}
!71 = !{!72, !73}
!72 = !DILocalVariable(name: "price", arg: 1, scope: !68, file: !2, line: 10, type: !17)
!73 = !DILocalVariable(name: "item", scope: !68, file: !2, line: 11, type: !20)
!74 = !DILocation(line: 10, column: 34, scope: !68)
!75 = !DILocation(line: 11, column: 3, scope: !68)
!76 = !DILocation(line: 11, column: 16, scope: !68)
!77 = !DILocation(line: 11, column: 23, scope: !68)
!78 = !DILocation(line: 12, column: 8, scope: !79)
!79 = distinct !DILexicalBlock(scope: !68, file: !2, line: 12, column: 7)
!80 = !DILocation(line: 12, column: 7, scope: !68)
!81 = !DILocation(line: 13, column: 5, scope: !79)
!82 = !DILocation(line: 14, column: 17, scope: !68)
!83 = !DILocation(line: 14, column: 3, scope: !68)
!84 = !DILocation(line: 14, column: 9, scope: !68)
!85 = !DILocation(line: 14, column: 15, scope: !68)
!86 = !DILocation(line: 15, column: 10, scope: !68)
!87 = !DILocation(line: 16, column: 1, scope: !68)
!88 = !DILocation(line: 15, column: 3, scope: !68)
!89 = !DISubprogram(name: "printf", scope: !90, file: !90, line: 356, type: !91, flags: DIFlagPrototyped, spFlags: DISPFlagOptimized)
!90 = !DIFile(filename: "/usr/include/stdio.h", directory: "", checksumkind: CSK_MD5, checksum: "b5a90985555f47bfb88eff5a8f0f5b72")
!91 = !DISubroutineType(types: !92)
!92 = !{!17, !93, null}
!93 = !DIDerivedType(tag: DW_TAG_restrict_type, baseType: !94)
!94 = !DIDerivedType(tag: DW_TAG_pointer_type, baseType: !95, size: 64)
!95 = !DIDerivedType(tag: DW_TAG_const_type, baseType: !4)
!96 = !DISubprogram(name: "malloc", scope: !97, file: !97, line: 553, type: !98, flags: DIFlagPrototyped, spFlags: DISPFlagOptimized)
!97 = !DIFile(filename: "/usr/include/stdlib.h", directory: "", checksumkind: CSK_MD5, checksum: "4b47dc81a92f1fe77a152c0aac236718")
!98 = !DISubroutineType(types: !99)
!99 = !{!100, !101}
!100 = !DIDerivedType(tag: DW_TAG_pointer_type, baseType: null, size: 64)
!101 = !DIDerivedType(tag: DW_TAG_typedef, name: "size_t", file: !102, line: 18, baseType: !103)
!102 = !DIFile(filename: "/usr/lib/llvm-19/lib/clang/19/include/__stddef_size_t.h", directory: "", checksumkind: CSK_MD5, checksum: "2c44e821a2b1951cde2eb0fb2e656867")
!103 = !DIBasicType(name: "unsigned long", size: 64, encoding: DW_ATE_unsigned)
!104 = !DISubprogram(name: "exit", scope: !97, file: !97, line: 637, type: !105, flags: DIFlagPrototyped | DIFlagNoReturn, spFlags: DISPFlagOptimized)
!105 = !DISubroutineType(types: !106)
!106 = !{null, !17}
